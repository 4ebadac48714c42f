% Takeuchi's function on numerals 0, s(0), s(s(0)) and so on, with a cut where the first argument is not the greater one, and
% a variant that counts its calls by a second numeral.
%
% Goals to try:
%   eight(X), four(Y), two(Z), tak(X, Y, Z, A)             the function's value
%   four(X), two(Y), tak(X, Y, s(0), A)                    on smaller numbers
%   eight(X), four(Y), two(Z), counted(X, Y, Z, A, 0, N)   with the number of its calls

two(s(s(0))).
four(s(s(s(s(0))))).
eight(s(s(s(s(N))))) :- four(N).

at_most(0, _).
at_most(s(X), s(Y)) :- at_most(X, Y).

tak(X, Y, Z, Z) :- at_most(X, Y), !.
tak(X, Y, Z, A) :-
    X = s(X1), Y = s(Y1), Z = s(Z1),
    tak(X1, Y, Z, A1), tak(Y1, Z, X, A2), tak(Z1, X, Y, A3),
    tak(A1, A2, A3, A).

counted(X, Y, Z, A, M, N) :-
    (   at_most(X, Y)
    ->  A = Z, N = s(M)
    ;   X = s(X1), Y = s(Y1), Z = s(Z1),
        counted(X1, Y, Z, A1, s(M), N1), counted(Y1, Z, X, A2, N1, N2), counted(Z1, X, Y, A3, N2, N3),
        counted(A1, A2, A3, A, N3, N)
    ).
