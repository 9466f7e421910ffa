mgsat [a,b].
mgsat [X|T].
mgsat (@twins(X), [_,b]).
