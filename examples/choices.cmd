% 'it' or 'her': each way gives an answer of its own, in the order in which the ways are written.
mgsat (pronoun, case:acc, (gender:neut ; gender:fem)).
% Of four ways one is left.
mgsat (verb, object:case:(acc ; dat), object:(case:(nom ; acc), gender:masc)).
% An answer may come again: both ways lead to the same structure.
mgsat (case:nom ; case:nom).
