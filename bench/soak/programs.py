"""Random programs of producers and consumers, whose transcripts depend on the schedule: threads send messages to queues and to each
other, take them, look at them, add and erase facts that others call, make and destroy queues, and write what they met."""

import random

CLAUSES = """\
:- dynamic((fact/2, seen/1, count/1, item/1)).
takes(0, _) :- !.
takes(N, Q) :- thread_get_message(Q, X), write(X), write(s), M is N - 1, takes(M, Q).
takes(0, _, _) :- !.
takes(N, Q, P) :- thread_get_message(Q, P), write(P), write(s), M is N - 1, takes(M, Q, P).
sends(0, _, _) :- !.
sends(N, Q, X) :- catch(thread_send_message(Q, X-N), error(E, _), (write(E), nl)), M is N - 1, sends(M, Q, X).
looks(0, _) :- !.
looks(N, Q) :- ( catch(thread_peek_message(Q, X), _, X = none) -> write(X) ; write(empty) ), write(s), M is N - 1, looks(M, Q).
adds(0, _) :- !.
adds(N, X) :- assertz(fact(N, X)), M is N - 1, adds(M, X).
adds_first(0, _) :- !.
adds_first(N, X) :- asserta(fact(N, X)), M is N - 1, adds_first(M, X).
drops(0) :- !.
drops(N) :- ( retract(fact(K, X)) -> write(K-X) ; write(none) ), write(s), M is N - 1, drops(M).
drops_all(K) :- retractall(fact(K, _)).
calls(0) :- !.
calls(N) :- findall(K-X, fact(K, X), L), write(L), nl, M is N - 1, calls(M).
walks(N) :- ( fact(K, X), write(K-X), write(s), \\+ stops(N) -> true ; true ).
stops(N) :- retract(seen(M)), !, K is M + 1, assertz(seen(K)), K < N.
stops(_) :- assertz(seen(0)).
counts(0) :- !.
counts(N) :- ( retract(count(C)) -> D is C + 1 ; D = 1 ), assertz(count(D)), write(D), write(s), M is N - 1, counts(M).
spins(0) :- !.
spins(N) :- M is N - 1, spins(M).
clauses(N) :- findall(K, clause(fact(N, K), true), L), write(L), nl.
erases :- retract(item(X)), write(X), write(s), fail.
erases.
fills(0) :- !.
fills(N) :- assertz(item(N)), M is N - 1, fills(M).
own(0) :- !.
own(N) :- thread_self(Me), thread_send_message(Me, own(N)), thread_get_message(own(K)), write(K), write(s), M is N - 1, own(M).
asks(Q, N) :- thread_self(Me), thread_send_message(Q, ask(Me, N)), thread_get_message(answer(X)), write(X), nl.
answers(0, _) :- !.
answers(N, Q) :-
    thread_get_message(Q, ask(Who, K)), L is K * K, catch(thread_send_message(Who, answer(L)), _, (write(gone), nl)),
    M is N - 1, answers(M, Q).
started([], []).
started([G|Gs], [T|Ts]) :- thread_create(G, T), started(Gs, Ts).
grows(0, A) :- !, write(A), nl.
grows(N, A) :-
    atom_concat(A, k, B), thread_send_message(q1, B), thread_get_message(q1, C), write(C), write(s), ( keeps(N) -> assertz(fact(N, C)) ; true ),
    M is N - 1, grows(M, B).
keeps(N) :- 0 =:= N mod 7.
joined([]).
joined([T|Ts]) :- thread_join(T, S), write(T-S), nl, joined(Ts).
"""


def action(r, queues, room):
    """A goal of a thread. `room` says how many messages each queue still has and wants."""
    q = r.choice(queues)
    k = r.random()
    n = r.randint(1, 4)
    if k < .20:
        room[q] += n
        return "sends(%d, %s, %s)" % (n, q, r.choice(["a", "b", "f(x)", "Y"]))
    if k < .40:
        return takes(r, q, room)
    if k < .46:
        return "looks(%d, %s)" % (n, q)
    if k < .55:
        return "%s(%d, %s)" % (r.choice(["adds", "adds_first"]), n, r.choice(["a", "b", "g(Z)"]))
    if k < .63:
        return "drops(%d)" % n
    if k < .65:
        return "drops_all(%s)" % r.choice(["1", "K"])
    if k < .71:
        return "calls(%d)" % r.randint(1, 2)
    if k < .74:
        return "walks(%d)" % n
    if k < .80:
        return r.choice(["counts(%d)", "own(%d)"]) % n
    if k < .84:
        return r.choice(["erases", "fills(%d)" % n])
    if k < .89:
        return "spins(%d)" % r.randint(1, 2000)
    if k < .92:
        return "clauses(%s)" % r.choice(["1", "2", "N"])
    if k < .94:
        return "(message_queue_create(Q), thread_send_message(Q, x), thread_get_message(Q, X), message_queue_destroy(Q))"
    if k < .96:
        return r.choice(["set_prolog_flag(unknown, fail)", "set_prolog_flag(unknown, error)", "catch(nobody(1), error(E, _), (write(E), nl))",
                         "catch(message_queue_destroy(%s), error(E, _), (write(E), nl))" % q])
    return "catch(thread_create(%s, T, [alias(%s)]), error(E, _), (write(E), nl))" % (
        r.choice(["true", "fail", "write(child)", "sends(1, q1, child)", "throw(x)", "thread_exit(y)", "halt(3)"]),
        r.choice(["c1", "c2", "c3"]))


def takes(r, q, room):
    """Takes no more than others send, mostly."""
    most = max(room[q], 0)
    if most == 0 and r.random() < .9:
        return "spins(%d)" % r.randint(1, 300)
    n = r.randint(1, most) if most else 1
    room[q] -= n
    return "takes(%d, %s)" % (n, q) if r.random() < .8 else "takes(%d, %s, %s)" % (n, q, r.choice(["X", "a-K", "X-1"]))


def pairs(r, count):
    """Producers and consumers in equal parts of one queue, and one that answers what others ask."""
    each = r.randint(1, 6)
    half = max(count // 2, 1)
    works = ["sends(%d, q1, %s), asks(q2, %d)" % (each, r.choice(["a", "f(x)"]), n) for n in range(half)]
    works += ["takes(%d, q1)" % each for _ in range(half)]
    works.append("answers(%d, q2)" % half)
    r.shuffle(works)
    return works


def names(r, count):
    """Threads that make atoms and send them to each other: more than a small table has slots, and most are forgotten again."""
    works = ["grows(%d, w%d)" % (r.randint(10, 60), n) for n in range(count)]
    if r.random() < .5:
        works[0] += ", garbage_collect_atoms, grows(20, v), calls(1)"
    return works


def ending(r):
    return r.choice(["true"] * 6 + ["fail", "throw(end(X))", "thread_exit(left(X))"])


def program(seed):
    """The program's text, and the words of its goals."""
    r = random.Random(seed)
    count = r.choice([2, 2, 3, 4, 5, 8, 12, 16, 24, 32]) if r.random() < .5 else r.randint(2, 6)
    queues = ["q%d" % (i + 1) for i in range(r.randint(1, 3))]
    kind = r.random()
    if kind < .3:
        queues = ["q1", "q2"]
        works = pairs(r, count)
    elif kind < .5:
        works = names(r, count)
    else:
        room = {q: 0 for q in queues}
        works = [", ".join([action(r, queues, room) for _ in range(r.randint(1, 5))] + [ending(r)]) for _ in range(count)]
    count = len(works)
    text = CLAUSES + "".join(":- message_queue_create(%s).\n" % q for q in queues)
    text += "".join("work(%d) :- %s.\n" % pair for pair in enumerate(works))
    if r.random() < .6:
        goals = ["started([%s], Ts), joined(Ts)" % ", ".join("work(%d)" % i for i in range(count))]
        if r.random() < .3:
            goals.append("spins(%d), calls(1)" % r.randint(1, 500))
    else:
        goals = ["work(%d)" % i for i in range(count)]
    return text, goals
