% An expert system in small: rules say what follows from what, observations are facts, and the program looks for a fault
% backwards from it and says why. A condition is an observation, something that follows, or no(C) where C cannot be shown.
% The file runs by itself: it has no goal, and the directive at its end starts it.

rule(1, fault(battery), [does_not_start, no(lights)]).
rule(2, fault(fuel), [does_not_start, starter_turns, gauge(empty)]).
rule(3, fault(spark_plugs), [does_not_start, starter_turns, no(gauge(empty)), no(wet)]).
rule(4, fault(ignition), [does_not_start, starter_turns, wet]).
rule(5, starter_turns, [lights, sound(grinding)]).
rule(6, wet, [weather(rain), parked(outside)]).

advice(battery, 'charge the battery').
advice(fuel, 'fill the tank').
advice(spark_plugs, 'look at the spark plugs').
advice(ignition, 'dry the ignition').

observed(does_not_start).
observed(lights).
observed(sound(grinding)).
observed(gauge(half)).
observed(weather(rain)).
observed(parked(outside)).

% shown(C, Proof): the condition C holds, for the reason in Proof.
shown(C, seen(C)) :- observed(C).
shown(no(C), none(C)) :- !, \+ shown(C, _).
shown(C, by(Number, C, Proofs)) :- rule(Number, C, Conditions), all_shown(Conditions, Proofs).

all_shown([], []).
all_shown([C|Cs], [P|Ps]) :- shown(C, P), all_shown(Cs, Ps).

% The reasons, each one step further to the right than what they are reasons for.
explain(seen(C), Margin) :- margin(Margin), write(C), write(' was seen'), nl.
explain(none(C), Margin) :- margin(Margin), write(C), write(' cannot be shown'), nl.
explain(by(Number, C, Proofs), Margin) :-
    margin(Margin), write(C), write(' by rule '), write(Number), nl,
    explain_all(Proofs, [step|Margin]).

explain_all([], _).
explain_all([P|Ps], Margin) :- explain(P, Margin), explain_all(Ps, Margin).

margin([]).
margin([step|M]) :- write('    '), margin(M).

diagnose :-
    (   shown(fault(F), Proof)
    ->  explain(Proof, []),
        advice(F, Advice), write('Advice: '), write(Advice), nl
    ;   write('No fault that is known.'), nl
    ).

:- initialization(diagnose).
