% A type checker for the simply typed lambda calculus. A term is var(Name), app(Function, Argument) or
% lam(Name, Body); a type is a variable or arrow(From, To). The occurs check of unification refuses a term that is
% applied to itself. A context is empty or has(Name, Type, Context).
%
% Goals to try:
%   typed(empty, lam(x, var(x)), Type)                                 the identity
%   typed(empty, lam(f, lam(x, app(var(f), app(var(f), var(x))))), T)  a function that is applied twice
%   typed(empty, lam(x, app(var(x), var(x))), T)                       none: the answer is false
%   typed(empty, Term, arrow(a, arrow(b, a)))                          a term of this type

name(x, y).
name(y, x).
name(x, f).
name(f, x).
name(y, f).
name(f, y).

looked_up(X, has(X, Type, _), Type).
looked_up(X, has(Y, _, Context), Type) :- name(X, Y), looked_up(X, Context, Type).

typed(Context, var(X), Type) :- looked_up(X, Context, Type).
typed(Context, lam(X, Body), arrow(From, To)) :- typed(has(X, From, Context), Body, To).
typed(Context, app(Function, Argument), To) :-
    typed(Context, Function, arrow(From, To)), typed(Context, Argument, From).
