% The tokens of the lines of a small language, and what all lines have of them. The goal asks for the names in order, with
% how often each is used, for the numbers, and for the names of which one is the beginning of another.

line(1, 'area = 2 * (width + 16)').
line(2, 'if area >= limit then limit = area').
line(3, 'area2=width*width-7').
line(4, 'price = 3 $ 5').
line(5, 'limit2 = area2 + 0016').

keyword(if). keyword(then).

symbol(=). symbol(+). symbol(-). symbol(*). symbol('('). symbol(')').
symbol(<). symbol(>). symbol(>=). symbol(=<).

% The tokens of a line; where a character begins none, a ball with the character and its column.
tokens(Line, Tokens) :-
    atom_chars(Line, Characters),
    read_tokens(Characters, Tokens, Rest),
    complete(Line, Rest).

complete(_, []).
complete(Line, [C|Cs]) :-
    atom_length(Line, All),
    length_of([C|Cs], Left),
    Column is All - Left,
    throw(no_token(C, Column)).

read_tokens([' '|Cs], Ts, Rest) :- !, read_tokens(Cs, Ts, Rest).
read_tokens(Cs, [T|Ts], Rest) :- token(T, Cs, More), !, read_tokens(More, Ts, Rest).
read_tokens(Rest, [], Rest).

token(number(N), [C|Cs], Rest) :-
    digit(C),
    digits(Cs, Ds, Rest),
    number_chars(N, [C|Ds]).
token(T, [C|Cs], Rest) :-
    letter(C),
    letters(Cs, Ls, Rest),
    atom_chars(A, [C|Ls]),
    ( keyword(A) -> T = keyword(A) ; T = name(A) ).
token(symbol(S), [C, D|Rest], Rest) :- atom_chars(S, [C, D]), symbol(S).
token(symbol(C), [C|Rest], Rest) :- symbol(C).

digit(C) :- '0' @=< C, C @=< '9'.
letter(C) :- a @=< C, C @=< z.

% The digits in front.
digits([C|Cs], [C|Ds], Rest) :- digit(C), !, digits(Cs, Ds, Rest).
digits(Rest, [], Rest).

letters([C|Cs], [C|Ls], Rest) :- ( letter(C) ; digit(C) ), !, letters(Cs, Ls, Rest).
letters(Rest, [], Rest).

% A token of one of the lines that have tokens alone.
token_of(T) :- line(_, Line), catch(tokens(Line, Ts), no_token(_, _), fail), member(T, Ts).

names(Names) :- findall(N, token_of(name(N)), Names).
numbers(Numbers) :- findall(N, token_of(number(N)), All), sort(All, Numbers).

% Each name with how often it is used.
counted(Counts) :-
    names(Names),
    sort(Names, Each),
    findall(N - K, ( member(N, Each), findall(N, member(N, Names), Ns), length_of(Ns, K) ), Counts).

% Names of which the first is the beginning of the second.
alike(Pairs) :-
    names(Names),
    sort(Names, Each),
    findall(A < B, ( member(A, Each), member(B, Each), A \== B, begins(A, B) ), Pairs).

begins(A, B) :- sub_atom(B, 0, _, _, A).

member(X, [X|_]).
member(X, [_|L]) :- member(X, L).

length_of([], 0).
length_of([_|L], N) :- length_of(L, M), N is M + 1.

show(N) :-
    line(N, Line),
    write(N), write(': '),
    catch(( tokens(Line, Ts), writeq(Ts) ), no_token(C, Column), ( write('no token at column '), write(Column), write(': '), writeq(C) )),
    nl.

:- show(_), fail ; true.
