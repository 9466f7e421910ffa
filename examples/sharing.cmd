% The subject's agreement is the verb's, and the phrase has it too.
mgsat (phrase, [subject, agr] == [verb, agr], agr:A, verb:agr:A).
% What is said of the one is said of the other.
mgsat (phrase, subject:(word, agr:(A, number:sg)), verb:(word, agr:(A, person:third))).
