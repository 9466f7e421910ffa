% The head of a phrase is that of its head daughter, though only one of them was described.
mgsat (phrase, head_daughter:head:case:acc).
% A phrase in a phrase: the principle holds at each of them.
mgsat (phrase, head_daughter:(phrase, head_daughter:(word, head:noun))).
% A sentence: each way in which its goal is proved is an answer of its own.
mgsat sentence.
% A finite sentence whose subject is in the accusative: there is none.
mgsat (sentence, head:form:finite, subject:head:case:acc).
