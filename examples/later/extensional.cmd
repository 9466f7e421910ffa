% Two nodes of type sg are one.
mgsat (sign, first:sg, second:sg).
% So are two pairs, as soon as all of their values are the same nodes.
mgsat (sign, first:(left:sg, right:pl), second:(left:sg, right:pl)).
% Where a value is not known to be the same, they stay two.
mgsat (sign, first:(left:sg, right:num), second:(left:sg, right:pl)).
% Two individuals stay two, though their numbers are one.
mgsat (sign, first:(individual, num:sg), second:(individual, num:sg)).
% No two nodes of type sg differ.
mgsat (sign, first:(sg, X), second:(sg, =\= X)).
