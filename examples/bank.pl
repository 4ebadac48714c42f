% A bank and its customers, each of which is a goal of the command: the first goal keeps the accounts and answers messages, and the
% others send them. In which order the messages come depends on the schedule; what each customer has at the end does not.
%
% Goals to try:
%   'bank(2)' 'customer(anna, [give(5), take(3)])' 'customer(ben, [take(1), give(2)])'
%   'bank(1)' 'customer(anna, [take(1)])'                 refused: there is nothing to take
%   'bank(2)' 'customer(anna, [give(5)])'                 the bank waits for a second customer for ever

:- dynamic(account/2).

% bank(Count): serves until so many customers have gone, and then writes the accounts.
bank(0) :- !, findall(Name-Sum, account(Name, Sum), Accounts), keysort(Accounts, Sorted), lines(Sorted).
bank(Count) :- thread_get_message(request(Request, From)), serve(Request, From, Count, Left), bank(Left).

serve(bye(_), _, Count, Left) :- !, Left is Count - 1.
serve(Request, From, Count, Count) :- answer(Request, Answer), !, thread_send_message(From, Answer).

answer(give(Name, Sum), done) :- change(Name, Sum, _).
answer(take(Name, Sum), done) :- account(Name, Has), Has >= Sum, !, Change is -Sum, change(Name, Change, _).
answer(take(Name, Sum), refused(Name, Sum)).

change(Name, Change, New) :- retract(account(Name, Old)), !, New is Old + Change, assertz(account(Name, New)).
change(Name, Change, Change) :- assertz(account(Name, Change)).

% customer(Name, Wishes): sends one wish after the other, and waits for the answer to each.
customer(Name, Wishes) :- thread_self(Me), all(Wishes, Name, Me), thread_send_message(main, request(bye(Name), Me)).

all([], _, _).
all([Wish|Wishes], Name, Me) :-
    request(Wish, Name, Request),
    thread_send_message(main, request(Request, Me)),
    thread_get_message(Answer),
    write(Wish), write(': '), write(Answer), nl,
    all(Wishes, Name, Me).

request(give(Sum), Name, give(Name, Sum)).
request(take(Sum), Name, take(Name, Sum)).

lines([]).
lines([Name-Sum|Accounts]) :- write(Name), write(' has '), write(Sum), nl, lines(Accounts).
