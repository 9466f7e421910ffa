% A list that begins with a, and whose rest has the list itself as its rest.
mgsat (X, hd:a, tl:tl:X).
% The empty list has no `hd`, so only the second of the two ways is left.
mgsat (hd:a, (e_list ; ne_list)).
