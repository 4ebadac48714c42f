% Prime numbers, found by several threads: each takes a stretch of numbers after the other from a queue, and sends back the primes
% in it. Which thread takes which stretch depends on the schedule, and the answer does not.
%
% Goals to try:
%   primes(100, 3, Ps)          the primes up to 100, found by three threads
%   primes(1000, 4, Ps), length_of(Ps, N)
%   thread_join(nobody, S)      an error: there is no such thread

% primes(Most, Count, Primes): the prime numbers from 2 to Most, found by so many threads.
primes(Most, Count, Primes) :-
    thread_self(Me),
    message_queue_create(Stretches),
    stretches(2, Most, Stretches, 0, Number),
    started(Count, Stretches, Me, Threads),
    collected(Number, Founds),
    stopped(Threads, Stretches),
    message_queue_destroy(Stretches),
    sort(Founds, Sorted),
    joined(Sorted, Primes).

% The numbers are handed out in stretches of 10.
stretches(Low, Most, _, Number, Number) :- Low > Most, !.
stretches(Low, Most, Queue, Before, Number) :-
    High is min(Low + 9, Most),
    thread_send_message(Queue, stretch(Low, High)),
    Next is High + 1, After is Before + 1,
    stretches(Next, Most, Queue, After, Number).

started(0, _, _, []) :- !.
started(Count, Queue, To, [Thread|Threads]) :-
    thread_create(work(Queue, To), Thread),
    Fewer is Count - 1,
    started(Fewer, Queue, To, Threads).

% Each thread takes one message that says to stop.
stopped([], _).
stopped([Thread|Threads], Queue) :-
    thread_send_message(Queue, stop),
    stopped(Threads, Queue),
    thread_join(Thread, true).

work(Queue, To) :- thread_get_message(Queue, Message), work_on(Message, Queue, To).

work_on(stop, _, _).
work_on(stretch(Low, High), Queue, To) :-
    primes_in(Low, High, [], Primes),
    thread_send_message(To, found(Low, Primes)),
    work(Queue, To).

% The primes from Low to High, before those of a list.
primes_in(Low, High, Primes, Primes) :- Low > High, !.
primes_in(Low, High, After, Primes) :-
    Fewer is High - 1,
    with_prime(High, After, More),
    primes_in(Low, Fewer, More, Primes).

with_prime(N, After, [N|After]) :- is_prime(N), !.
with_prime(_, After, After).

is_prime(N) :- \+ has_divisor(N, 2).

has_divisor(N, D) :- D * D =< N, 0 is N mod D, !.
has_divisor(N, D) :- D * D < N, E is D + 1, has_divisor(N, E).

collected(0, []) :- !.
collected(Number, [found(Low, Primes)|Founds]) :-
    thread_get_message(found(Low, Primes)),
    Fewer is Number - 1,
    collected(Fewer, Founds).

joined([], []).
joined([found(_, Primes)|Founds], All) :- joined(Founds, Rest), append(Primes, Rest, All).

append([], Ys, Ys).
append([X|Xs], Ys, [X|Zs]) :- append(Xs, Ys, Zs).

length_of([], 0).
length_of([_|Xs], N) :- length_of(Xs, M), N is M + 1.
