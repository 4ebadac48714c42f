% A timetable: all journeys between two stations within a day, the shortest first, with what each station offers.
%
% Goals to try:
%   journeys(alder, elm, Js)             all journeys, each with its minutes and its trains
%   earliest(alder, elm, 480, J)         the one that arrives first, of those that leave at 8:00 or later
%   departures(birch, Ds)                what leaves there, in order

% train(Number, From, Leaves, To, Arrives), in minutes after midnight.
train(1, alder, 450, birch, 480).
train(2, alder, 500, cedar, 560).
train(3, birch, 490, cedar, 530).
train(4, birch, 495, dogwood, 600).
train(5, cedar, 540, elm, 640).
train(6, cedar, 570, elm, 610).
train(7, dogwood, 610, elm, 650).
train(8, birch, 560, alder, 590).

% A journey is a list of trains, of which each leaves when the one before has arrived, and no station comes twice.
journey(From, To, Trains) :- journey(From, To, 0, [From], Trains).

journey(To, To, _, _, []).
journey(From, To, Time, Seen, [N|Ns]) :-
    From \== To,
    train(N, From, Leaves, Next, Arrives),
    Leaves >= Time,
    \+ member(Next, Seen),
    journey(Next, To, Arrives, [Next|Seen], Ns).

member(X, [X|_]).
member(X, [_|L]) :- member(X, L).

minutes(Ns, M) :- leaves(Ns, L), arrives(Ns, A), M is A - L.

leaves([N|_], L) :- train(N, _, L, _, _).
arrives(Ns, A) :- last(Ns, N), train(N, _, _, _, A).

last([X], X) :- !.
last([_|L], X) :- last(L, X).

journeys(From, To, Journeys) :-
    findall(M - Ns, ( journey(From, To, Ns), minutes(Ns, M) ), Found),
    keysort(Found, Journeys).

earliest(From, To, Time, Trains) :-
    findall(A - Ns, ( journey(From, To, Ns), leaves(Ns, L), L >= Time, arrives(Ns, A) ), Found),
    keysort(Found, [_ - Trains|_]).

departures(Station, Departures) :-
    findall(Leaves - To, train(_, Station, Leaves, To, _), Found),
    keysort(Found, Departures).

% How many trains leave each station, and the stations that none leaves.
stations(Counts, Ends) :-
    findall(S, ( train(_, S, _, _, _) ; train(_, _, _, S, _) ), All),
    sort(All, Stations),
    findall(S - K, ( member(S, Stations), findall(N, train(N, S, _, _, _), Ns), length_of(Ns, K) ), Counts),
    findall(S, ( member(S, Stations), \+ train(_, S, _, _, _) ), Ends).

length_of([], 0).
length_of([_|L], N) :- length_of(L, M), N is M + 1.

show([]).
show([M - Trains|Js]) :- write(M), write(' minutes by '), write(Trains), nl, show(Js).

:- journeys(alder, elm, Js), show(Js).
:- departures(birch, Ds), print(Ds), nl.
