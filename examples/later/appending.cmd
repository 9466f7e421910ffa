% One list after another.
query append([a,b], [c], Whole).
% Every way to cut a list in two: the empty first part comes first, since its clause stands first.
query append(First, Second, [a,b]).
% What must come before [c] to give [a,b,c].
query append(Before, [c], [a,b,c]).
% Nothing comes before [b] in a list that ends in c: no answer, and the search is complete.
query append(_, [b], [a,c]).
% What is not known of the first list is found out from the whole: its item is a b.
query append([X], [a], [b|Rest]).
