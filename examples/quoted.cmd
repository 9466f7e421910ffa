% 'größe' and größe are one name, and it is printed without quotes.
mgsat ('HEAD':'größe', 'spec-of':('it''s' ; 'Dog')).
