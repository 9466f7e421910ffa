% The second command asks for a type that the grammar lacks, so the file is refused as a whole.
mgsat number:sg.
mgsat number:dual.
