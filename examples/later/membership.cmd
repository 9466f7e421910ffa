% Each member is an answer, in the order of the list.
query member(X, [(noun, num:sg), verb]).
% The members that are plural: of the second one nothing was said, and an answer says what then holds of it.
query member((Member, num:pl), [(noun, num:sg), verb]).
% No member is both a noun and plural.
query member((noun, num:pl), [(noun, num:sg), verb]).
% A goal of two parts shares its variables; a semicolon asks for one or the other.
query (member(X, [noun, verb]), (X = num:sg ; X = num:pl)).
query agreeing([(noun, num:pl), (noun, num:sg), (verb, num:sg)]).
