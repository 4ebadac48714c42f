% A calculator: it evaluates expressions with variables, simplifies and differentiates them, and says what is wrong with
% those that have no value.
%
% Goals to try:
%   calculate(2 ** 10 - 1, [])                        prints the value
%   calculate(x * x + y, [x = 7, y = -7])             with values for the variables
%   calculate(1 // (x - 3), [x = 3])                  says what is wrong
%   derivative(x ** 3 + 2 * x, x, D)                  a derivative, simplified
%   show                                              a few of these

% calculate(Expression, Values) writes the expression and its value, or why it has none.
calculate(E, Values) :-
    print(E),
    catch((value(E, Values, V), result(V)), error(Problem, _), refused(Problem)),
    nl.

result(V) :- write(' = '), write(V).

refused(evaluation_error(What)) :- !, write(' has no value: '), write(What).
refused(type_error(evaluable, Name/Arity)) :- !, write(' cannot be evaluated: '), print(Name/Arity).
refused(unbound(Name)) :- write(' needs a value for '), print(Name).

% value(Expression, Values, V): names take their values from the list.
value(E, _, E) :- integer(E), !.
value(E, Values, V) :- atom(E), !, lookup(E, Values, V).
value(E, Values, V) :- functor(E, F, 2), !,
    arg(1, E, A), value(A, Values, X),
    arg(2, E, B), value(B, Values, Y),
    functor(G, F, 2), arg(1, G, X), arg(2, G, Y),
    V is G.
value(E, Values, V) :- functor(E, F, 1), !,
    arg(1, E, A), value(A, Values, X),
    functor(G, F, 1), arg(1, G, X),
    V is G.
value(E, _, V) :- V is E.

lookup(Name, [Name = V|_], V) :- !.
lookup(Name, [_|Rest], V) :- lookup(Name, Rest, V).
lookup(Name, [], _) :- throw(error(unbound(Name), lookup/3)).

% derivative(Expression, Variable, D), simplified.
derivative(E, X, D) :- d(E, X, R), simple(R, D).

d(E, _, 0) :- integer(E), !.
d(E, X, 1) :- E == X, !.
d(E, _, 0) :- atom(E), !.
d(A + B, X, DA + DB) :- d(A, X, DA), d(B, X, DB).
d(A - B, X, DA - DB) :- d(A, X, DA), d(B, X, DB).
d(A * B, X, DA * B + A * DB) :- d(A, X, DA), d(B, X, DB).
d(A ** N, X, N * A ** M * DA) :- integer(N), M is N - 1, d(A, X, DA).

% simple(Expression, Simpler): constants are computed, and zeros and ones left out.
simple(E, E) :- atomic(E), !.
simple(E, S) :- functor(E, F, 2), arg(1, E, A), arg(2, E, B),
    simple(A, X), simple(B, Y),
    functor(G, F, 2), arg(1, G, X), arg(2, G, Y),
    rule(G, S), !.

rule(E, V) :- ground(E), arg(1, E, A), integer(A), arg(2, E, B), integer(B), V is E.
rule(0 + A, A).
rule(A + 0, A).
rule(A - 0, A).
rule(0 * _, 0).
rule(_ * 0, 0).
rule(1 * A, A).
rule(A * 1, A).
rule(_ ** 0, 1).
rule(A ** 1, A).
rule(A, A).

show :-
    calculate(2 ** 10 - 1, []),
    calculate(x * x + y, [x = 7, y = -7]),
    calculate(1 // (x - 3), [x = 3]),
    calculate(z + 1, []),
    calculate(sqrt(2), []),
    calculate(9223372036854775807 + 1, []),
    derivative(x ** 3 + 2 * x + 5, x, D), print(D), nl,
    calculate(D, [x = 2]).
