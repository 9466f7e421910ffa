% Not looked at, since the grammar is refused.
mgsat (noun, modifier).
