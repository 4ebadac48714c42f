% Queens on a board such that no two are in one row, column or diagonal, by unification alone. A board is the list of its
% columns, each with the row of its queen; the diagonals through the columns are lists too, which move by one element from
% queen to queen. A queen that is put down puts its number into its column and into both of its diagonals, and where another
% queen's number stands there already, unification fails.
%
% Goals to try:
%   queens([1,2,3,4,5,6,7,8], Board)               the first board of eight queens
%   queens([1,2,3], Board)                         none: the answer is false
%   queens([1,2,3,4,5,6], Board), show(Board)      a board of six queens, drawn

queens(Rows, Board) :- columns(Rows, Board), place(Rows, Board, _, _).

columns([], []).
columns([_|Rows], [_|Columns]) :- columns(Rows, Columns).

% place(Rows, Columns, Up, Down): Up and Down are the diagonals from the row on.
place([], _, _, _).
place([Row|Rows], Columns, Up, [_|Down]) :-
    place(Rows, Columns, [_|Up], Down),
    put(Row, Columns, Up, Down).

put(Row, [Row|_], [Row|_], [Row|_]).
put(Row, [_|Columns], [_|Up], [_|Down]) :- put(Row, Columns, Up, Down).

% A line for each column, with a Q where the queen is.
show(Board) :- show(Board, Board).

show([], _).
show([Row|Rows], Board) :- line(Board, Row, Board), nl, show(Rows, Board).

line([], _, _).
line([_|More], Row, Board) :- square(More, Row, Board), line(More, Row, Board).

% The rows are numbered by how many columns are left.
square(More, Row, _) :- number_of(More, N), ( N = Row -> write(' Q') ; write(' .') ).

number_of([], 1).
number_of([_], 2).
number_of([_,_], 3).
number_of([_,_,_], 4).
number_of([_,_,_,_], 5).
number_of([_,_,_,_,_], 6).
number_of([_,_,_,_,_,_], 7).
number_of([_,_,_,_,_,_,_], 8).
