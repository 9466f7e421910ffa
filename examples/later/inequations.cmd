% Both may be alike and are still two: the line below the structure says so.
mgsat (plain, subject:number:sg, object:number:sg).
% No clause is plain where both are one node.
mgsat (plain, subject:X, object:X).
% A clause of which nothing is said is no plain one yet, so nothing has to differ.
mgsat clause.
% In a goal: two different individuals among three variables, of which the last two are one.
query (X = individual, Y = (individual, =\= X), Z = Y).
% And it fails as soon as both are made one.
query (X = individual, Y = (individual, =\= X), X = Y).
