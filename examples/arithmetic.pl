% Arithmetic on the numerals 0, s(0), s(s(0)) and so on, by Peano's equations. Read the other way, the same rules
% subtract, divide and find factors.
%
% Goals to try:
%   six(N), seven(M), times(N, M, P)              the product of six and seven
%   two(N), plus(N, X, Sum), six(Sum)             what is to be added to two for six
%   factorial(s(s(s(s(0)))), F)                   the factorial of four
%   six(P), times(s(s(N)), s(s(M)), P)            two factors of six, neither of them one

two(s(s(0))).
six(s(s(s(s(s(s(0))))))).
seven(s(N)) :- six(N).

plus(0, Y, Y).
plus(s(X), Y, s(Z)) :- plus(X, Y, Z).

times(0, Y, 0).
times(s(X), Y, Z) :- times(X, Y, W), plus(Y, W, Z).

factorial(0, s(0)).
factorial(s(N), F) :- factorial(N, G), times(s(N), G, F).
