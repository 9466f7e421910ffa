% A list that is its own tail.
mgsat (X, ne_list, tl:X).
% A list of a and b, over and over.
mgsat (X, hd:a, tl:(hd:b, tl:X)).
% Where a list is the rest of its rest, and also the rest of the rest of its rest, it is its own rest.
mgsat (X, tl:tl:X, tl:tl:tl:X).
