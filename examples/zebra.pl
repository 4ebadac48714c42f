% Who keeps the zebra? Five houses stand in a row; each has a colour, and its owner a nation, a pet, a drink and a trade.
% What is known of them is written down as terms with variables, and backtracking finds the houses that fit.
%
% Goals to try:
%   keeps(zebra, Who)             who keeps the zebra
%   drinks(water, Who)            who drinks water
%   houses(H), show(H)            all that is known in the end

in(X, [X|_]).
in(X, [_|L]) :- in(X, L).

left_of(X, Y, [X,Y|_]).
left_of(X, Y, [_|L]) :- left_of(X, Y, L).

beside(X, Y, L) :- left_of(X, Y, L) ; left_of(Y, X, L).

houses(H) :-
    H = [house(_, norwegian, _, _, _), _, house(_, _, _, milk, _), _, _],
    in(house(red, english, _, _, _), H),
    in(house(green, _, _, coffee, _), H),
    in(house(_, spanish, dog, _, _), H),
    in(house(_, ukrainian, _, tea, _), H),
    left_of(house(ivory, _, _, _, _), house(green, _, _, _, _), H),
    in(house(_, _, snails, _, sculptor), H),
    in(house(yellow, _, _, _, diplomat), H),
    beside(house(_, _, _, _, physician), house(_, _, fox, _, _), H),
    beside(house(_, _, _, _, diplomat), house(_, _, horse, _, _), H),
    in(house(_, _, _, juice, violinist), H),
    in(house(_, japanese, _, _, acrobat), H),
    beside(house(_, norwegian, _, _, _), house(blue, _, _, _, _), H),
    in(house(_, _, zebra, _, _), H),
    in(house(_, _, _, water, _), H), !.

keeps(Pet, Who) :- houses(H), in(house(_, Who, Pet, _, _), H).
drinks(Drink, Who) :- houses(H), in(house(_, Who, _, Drink, _), H).

show(H) :- in(house(Colour, Nation, Pet, Drink, Trade), H),
    write(Colour), write(': '), write([Nation, Pet, Drink, Trade]), nl, fail.
show(_).
