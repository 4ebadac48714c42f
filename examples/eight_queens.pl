% Eight queens by arithmetic: a board is a list of rows, one for each column, and two queens are on one diagonal where their
% rows differ by as much as their columns.
%
% Goals to try:
%   queens(8, Board)                  the first board; with --solutions 92 all of them
%   queens(6, Board), draw(Board)     a smaller one, drawn
%   queens(3, Board)                  none: the answer is false
%   queens(6, B), msort(B, Rows)      its rows, sorted

queens(N, Board) :- numbers(1, N, Rows), place(Rows, [], Board).

numbers(N, N, [N]) :- !.
numbers(I, N, [I|Rest]) :- I < N, J is I + 1, numbers(J, N, Rest).

% place(Rows, Placed, Board): the rows that are left go into the columns before those that have a queen.
place([], Board, Board).
place(Rows, Placed, Board) :-
    select(Row, Rows, Rest),
    safe(Row, 1, Placed),
    place(Rest, [Row|Placed], Board).

select(X, [X|Xs], Xs).
select(X, [Y|Ys], [Y|Zs]) :- select(X, Ys, Zs).

safe(_, _, []).
safe(Row, Distance, [Other|Others]) :-
    abs(Row - Other) =\= Distance,
    Next is Distance + 1,
    safe(Row, Next, Others).

draw(Board) :- msort(Board, Rows), draw(Rows, Board).

draw([], _).
draw([Row|Rows], Board) :- line(Board, Row), nl, draw(Rows, Board).

line([], _).
line([Row|Others], Row) :- !, write(' Q'), line(Others, Row).
line([_|Others], Row) :- write(' .'), line(Others, Row).
