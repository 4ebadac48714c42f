% Makes and drops atoms in SWI-Prolog, as many threads as told and as many atoms in each.
:- initialization(main, main).

main([ThreadCount, Count]) :-
    atom_number(ThreadCount, Threads),
    atom_number(Count, Atoms),
    get_time(Start),
    numlist(1, Threads, Numbers),
    maplist(started(Atoms), Numbers, Ids),
    maplist([Id]>>thread_join(Id, true), Ids),
    get_time(End),
    Seconds is End - Start,
    statistics(agc, Collections),
    statistics(atoms, Left),
    format("~3f s, ~d collections, ~d atoms left~n", [Seconds, Collections, Left]).

started(Atoms, Number, Id) :-
    atomic_list_concat([text_, Number, '_'], Begin),
    thread_create(made(Begin, Atoms), Id).

made(Begin, Atoms) :-
    forall(between(1, Atoms, Number), atom_concat(Begin, Number, _)).
