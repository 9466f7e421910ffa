% Subject and verb share one agreement: what is said of it at one place holds at both.
mgsat (subject:agr:(A, number:sg), verb:agr:(A, person:third)).
% A word like `sheep`, singular or plural: an answer for each.
mgsat (word, agr:(person:third, number:(sg ; pl))).
% A singular subject and a plural verb that share their agreement: there is no such phrase.
mgsat (subject:agr:(A, number:sg), verb:agr:(A, number:pl)).
