% Routes through a railway network, each written down as the stops on the way, with the number of legs in the
% numerals 0, s(0), s(s(0)) and so on. The numeral bounds the search, so it ends although the network has circles.
%
% Goals to try:
%   route(basel, vienna, s(s(s(s(0)))), Stops)         a route with four legs
%   route(basel, basel, s(s(s(0))), Stops)             a circle with three legs
%   route(vienna, basel, s(0), Stops)                  none: the answer is false
%   within(basel, vienna, s(s(s(s(0)))), Stops)        a route with at most four legs

leg(basel, zurich).
leg(zurich, basel).
leg(zurich, munich).
leg(munich, zurich).
leg(zurich, milan).
leg(milan, basel).
leg(munich, salzburg).
leg(salzburg, vienna).
leg(munich, prague).
leg(prague, vienna).

route(A, B, s(0), to(A, end(B))) :- leg(A, B).
route(A, C, s(s(N)), to(A, Stops)) :- leg(A, B), route(B, C, s(N), Stops).

at_most(X, X).
at_most(X, s(Y)) :- at_most(X, Y).

within(A, B, Most, Stops) :- at_most(s(Legs), Most), route(A, B, s(Legs), Stops).
