% A map in three colours such that no two neighbours have the same one. The goal's variables are the colours of the
% states of Australia; backtracking tries the colours.
%
% Goals to try:
%   map(WA, NT, SA, Q, NSW, V, T)                    a colouring
%   map(red, NT, SA, Q, NSW, red, T)                 a colouring with two colours given
%   map(red, red, SA, Q, NSW, V, T)                  none: two neighbours are both red

differ(red, green).
differ(red, blue).
differ(green, red).
differ(green, blue).
differ(blue, red).
differ(blue, green).

colour(X) :- differ(X, _).

map(WA, NT, SA, Q, NSW, V, T) :-
    differ(WA, NT), differ(WA, SA), differ(NT, SA), differ(NT, Q), differ(SA, Q),
    differ(SA, NSW), differ(SA, V), differ(Q, NSW), differ(NSW, V), colour(T).
