% Rules that are applied to facts until nothing new follows from them: who may do what with which part of a book. A
% rule says what follows where all its conditions are known. What is found is added as a clause of known/1, its reason
% as one of reason/3. These two are procedures that goals make; those of this file are static.
%
% Goals to try:
%   derive, may(dan, R, intro)            what dan may do with the introduction, and why
%   derive, may(P, write, book)           who may write the whole book
%   derive, may(eve, R, D)                none: the answer is false

fact(member(ann, editors)).
fact(member(bob, authors)).
fact(member(cleo, readers)).
fact(member(dan, interns)).
fact(member(eve, visitors)).
fact(subgroup(editors, authors)).
fact(subgroup(authors, readers)).
fact(subgroup(interns, readers)).
fact(grant(readers, read, book)).
fact(grant(authors, write, drafts)).
fact(grant(editors, write, book)).
fact(part(intro, book)).
fact(part(drafts, book)).
fact(part(chapter(1), drafts)).
fact(part(chapter(2), drafts)).

rule(weaker, [may(P, write, D)], may(P, read, D)).
rule(part, [may(P, R, D), part(E, D)], may(P, R, E)).
rule(granted, [member(P, G), grant(G, R, D)], may(P, R, D)).
rule(subgroup, [member(P, G), subgroup(G, H)], member(P, H)).
rule(within, [part(D, E), part(E, F)], part(D, F)).

% derive: the facts become known, then rounds are made until one finds nothing.
derive :- begin, rounds(1).

begin :- fact(F), assertz(known(F)), assertz(reason(F, fact, [])), fail.
begin.

rounds(N) :-
    round(N),
    findall(F, reason(F, round(N, _), _), Fs), count(Fs, K),
    write('round '), write(N), write(': '), write(K), write(' new'), nl,
    (   K =:= 0
    ->  true
    ;   M is N + 1, rounds(M)
    ).

% A round goes through all rules and all that is known. A call sees the clauses that there are when it begins: what
% the round adds while it backtracks is a condition of the calls that begin after it, and of none that is already
% open.
round(N) :-
    rule(Rule, Conditions, F), all_known(Conditions), \+ known(F),
    assertz(known(F)), assertz(reason(F, round(N, Rule), Conditions)),
    fail.
round(_).

all_known([]).
all_known([C|Cs]) :- known(C), all_known(Cs).

count([], 0).
count([_|Xs], N) :- count(Xs, M), N is M + 1.

% may(P, R, D): P has the right R to D; the reasons are written.
may(P, R, D) :- known(may(P, R, D)), explain(may(P, R, D), []).

explain(F, Margin) :-
    reason(F, How, Conditions),
    margin(Margin), write(F), write(': '), because(How), nl,
    explain_all(Conditions, [step|Margin]).

explain_all([], _).
explain_all([C|Cs], Margin) :- explain(C, Margin), explain_all(Cs, Margin).

because(fact) :- write('a fact').
because(round(N, Rule)) :- write('rule '), write(Rule), write(', round '), write(N).

margin([]).
margin([step|M]) :- write('    '), margin(M).
