% Two threads with messages: a worker takes numbers from a queue, and sends their squares back to the thread that
% made it.
%
% Goals to try:
%   squares([3, 1, 2], L)     the squares, in the order in which they were asked for
%   squares([3, a, 2], L)     none: the worker ends with an error, and the answer is false

% squares(Numbers, Pairs): Pairs has N-S for each number N with its square S.
squares(Numbers, Pairs) :-
    thread_self(Me),
    message_queue_create(Jobs),
    thread_create(catch(work(Jobs, Me), E, failed(Me, E)), Worker),
    send_all(Numbers, Jobs), thread_send_message(Jobs, stop),
    collect(Numbers, Pairs0, End),
    thread_join(Worker, Status),
    message_queue_destroy(Jobs),
    write(Status), write(', '), write(End), nl,
    End = done, Pairs = Pairs0.

send_all([], _).
send_all([N|Ns], Jobs) :- thread_send_message(Jobs, job(N)), send_all(Ns, Jobs).

work(Jobs, To) :- thread_get_message(Jobs, Job), work_on(Job, Jobs, To).

work_on(stop, _, _).
work_on(job(N), Jobs, To) :- S is N * N, thread_send_message(To, square(N, S)), work(Jobs, To).

failed(To, E) :- thread_send_message(To, failed(E)).

collect([], [], done).
collect([_|Ns], Pairs, End) :- thread_get_message(M), collected(M, Ns, Pairs, End).

collected(square(N, S), Ns, [N-S|Pairs], End) :- collect(Ns, Pairs, End).
collected(failed(E), _, [], failed(E)).
