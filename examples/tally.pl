% How often each word stands in a text: a fact count(Word, N) for each word that was met, which is retracted and added
% anew each time the word is met again.
%
% Goals to try:
%   tally, most(N, W)                the words that stand most often
%   tally, count(dog, N)             how often one of them stands
%   tally, tally, count(dog, N)      the same: the counts of the first time are cleared
%   tally, clause(count(W, 1), B)    the words that stand once, as clauses

:- dynamic(count/2).

text([the, dog, saw, the, cat, and, the, cat, saw, the, mouse, that, saw, the, dog, and, the, cat]).

tally :- retractall(count(_, _)), text(Words), met_all(Words), report.

met_all([]).
met_all([W|Ws]) :- met(W), met_all(Ws).

met(W) :- retract(count(W, N)), !, M is N + 1, assertz(count(W, M)).
met(W) :- assertz(count(W, 1)).

% A line for each word, those that stand often last; of those with the same count the one that was met last comes last.
report :-
    findall(N-W, count(W, N), Pairs), keysort(Pairs, Sorted),
    lines(Sorted).

lines([]).
lines([N-W|Ps]) :- write(N), write(' '), write(W), nl, lines(Ps).

% most(N, W): W stands N times, and no word stands more often.
most(N, W) :- count(W, N), \+ (count(_, M), M > N).
