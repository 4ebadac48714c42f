% A relay: threads stand in a ring, and a baton goes round it. Each thread takes the baton, writes down its round and hands the
% baton on; what a thread has written stands in its own section. The last one raises an error, which thread_join/2 tells.
%
% Goals to try:
%   relay([anna, ben, carla], 2)     two rounds by three runners
%   relay([anna], 3)                 one runner hands the baton to itself

relay(Names, Rounds) :-
    Names = [First|_],
    all_started(Names, First, Rounds),
    thread_send_message(First, baton(1)),
    all_joined(Names).

all_started([Name], First, Rounds) :- !, start(Name, First, Rounds, last).
all_started([Name,Next|Names], First, Rounds) :-
    start(Name, Next, Rounds, inner),
    all_started([Next|Names], First, Rounds).

start(Name, Next, Rounds, Place) :- thread_create(run(Next, Rounds, Place), _, [alias(Name)]).

run(Next, Rounds, Place) :- thread_get_message(baton(Round)), run(Round, Rounds, Next, Place).

run(Round, Rounds, Next, Place) :-
    write('round '), write(Round), nl,
    after(Place, Round, NextRound),
    handed_on(Place, Round, Rounds, Next, NextRound),
    ( Round < Rounds -> run(Next, Rounds, Place) ; end(Place) ).

% The last of the ring begins the next round.
after(inner, Round, Round).
after(last, Round, Next) :- Next is Round + 1.

handed_on(last, Rounds, Rounds, _, _) :- !.
handed_on(_, _, _, Next, Round) :- thread_send_message(Next, baton(Round)).

end(inner).
end(last) :- throw(out_of_breath).

all_joined([]).
all_joined([Name|Names]) :- thread_join(Name, Status), write(Name-Status), nl, all_joined(Names).
