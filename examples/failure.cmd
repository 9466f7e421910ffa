% Nothing is both a and b: failure is no refusal, and the search is complete.
mgsat (a, b).
% One node cannot be a and b, by whichever path it is described.
mgsat (ne_list, hd:a, tl:hd:b, [hd] == [tl, hd]).
% A disjunct that fails leaves the other.
mgsat (hd:a, (e_list ; ne_list)).
