% That nothing is described is an answer of the search, and no refusal.
mgsat num:(sg, pl).
