% An interpreter of a small language. A program is a list of statements: set(Name, Expression), if(Condition, Then, Else),
% while(Condition, Body), say(Expression). An expression is a name, a numeral 0, s(0), .., or plus, minus or times of two; a
% condition is less(A, B) or no(C). A store of values is a list of Name-Value. What goes wrong is thrown: a name without
% a value, and a difference below 0.
%
% Goals to try:
%   program(factorial, P), run(P)          says the factorial of four in strokes
%   program(unknown, P), run(P)            a name that has no value
%   program(below, P), run(P)              a difference that does not exist

program(factorial, [
    set(n, s(s(s(s(0))))), set(f, s(0)),
    while(less(0, n), [set(f, times(f, n)), set(n, minus(n, s(0))), say(f)])]).
program(unknown, [set(n, s(0)), say(plus(n, m))]).
program(below, [set(n, s(0)), while(no(less(n, 0)), [say(n), set(n, minus(n, s(0)))])]).

run(P) :- catch(do_all(P, [], _), fault(F), (write('fault: '), write(F), nl)).

do_all([], Store, Store).
do_all([S|Ss], Store, End) :- do(S, Store, Next), do_all(Ss, Next, End).

do(set(N, E), Store, Next) :- value(E, Store, V), store(Store, N, V, Next).
do(if(C, Then, Else), Store, Next) :- ( holds(C, Store) -> do_all(Then, Store, Next) ; do_all(Else, Store, Next) ).
do(while(C, Body), Store, Next) :-
    (   holds(C, Store)
    ->  do_all(Body, Store, Middle), do(while(C, Body), Middle, Next)
    ;   Next = Store
    ).
do(say(E), Store, Store) :- value(E, Store, V), strokes(V), nl.

store([], N, V, [N-V]).
store([N-_|Rest], N, V, [N-V|Rest]) :- !.
store([Other|Rest], N, V, [Other|Next]) :- store(Rest, N, V, Next).

value(0, _, 0) :- !.
value(s(E), Store, s(V)) :- !, value(E, Store, V).
value(plus(A, B), Store, V) :- !, value(A, Store, X), value(B, Store, Y), plus(X, Y, V).
value(times(A, B), Store, V) :- !, value(A, Store, X), value(B, Store, Y), times(X, Y, V).
value(minus(A, B), Store, V) :- !,
    value(A, Store, X), value(B, Store, Y),
    ( plus(Y, D, X) -> V = D ; throw(fault(below_zero(A - B))) ).
value(N, [N-V|_], V) :- !.
value(N, [_|Store], V) :- !, value(N, Store, V).
value(N, [], _) :- throw(fault(no_value(N))).

holds(less(A, B), Store) :- value(A, Store, X), value(B, Store, Y), plus(s(X), _, Y), !.
holds(no(C), Store) :- \+ holds(C, Store).

plus(0, Y, Y).
plus(s(X), Y, s(Z)) :- plus(X, Y, Z).

times(0, _, 0).
times(s(X), Y, Z) :- times(X, Y, W), plus(Y, W, Z).

strokes(0).
strokes(s(N)) :- put_char('|'), strokes(N).
