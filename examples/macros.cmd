mgsat @np(sg).
mgsat @agree(num:pl, per:P).
mgsat (@np(N), @agree(num:N, _)).
