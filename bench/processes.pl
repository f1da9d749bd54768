% The goals of processes for SWI-Prolog, so that bench/run can compare: each process is a goal
% that is run up to its next process goal by a delimited continuation. Boxes and the calendar are
% terms, so a failure takes them back as it does all else.
%
% It has new, hold, send to one name, wait_for, wait, now and note, and end times. It keeps no
% history, so note does nothing. A goal inside once, -> or \+ can't hold or wait here.
%
%   swipl processes.pl MODEL -g 'simulate(GOAL)'
:- use_module(library(assoc)).
:- use_module(library(ordsets)).

new(Goal, Name, Start, End) :- shift(new(Goal, Name, Start, End)).
hold(Time) :- shift(hold(Time)).
send(Message, Name) :- shift(send(Message, Name)).
wait_for(Message) :- shift(wait_for(Message)).
wait(Goal) :- shift(wait(Goal)).
now(Time) :- shift(now(Time)).
note(_).

% simulate(Goal): some course of the processes that Goal makes has every process end in time.
% The world is world(Clock, Number, Calendar, Boxes, Waiting, Parked, Ends): Number is that of the
% next entry, Waiting has the processes that await mail by name, Parked those with a condition in
% the order in which they were made, and Ends the end times. A box has the number at which its
% process was made, and an open list.
simulate(Goal) :-
    empty_assoc(None),
    list_to_assoc([main-box(-1, Tail, Tail)], Boxes),
    run(Goal, main, world(0, 0, None, Boxes, None, [], None)).

run(Goal, Name, World) :-
    reset(Goal, Ball, Rest),
    (   Rest == 0
    ->  ended(Name, World, Next), let_go(Next)
    ;   act(Ball, Rest, Name, World)
    ).

ended(Name, world(C, N, Cal, Bs, Ws, Ps, Ends), world(C, N, Cal, Bs, Ws, Ps, Ends1)) :-
    (   get_assoc(Name, Ends, _) -> del_assoc(Name, Ends, _, Ends1) ; Ends1 = Ends ).

act(new(Goal, Name, Start, End), Rest, Me, world(C, N, Cal, Bs, Ws, Ps, Ends)) :-
    put_assoc(Start-N, Cal, Name-Goal, Cal1),
    put_assoc(Name, Bs, box(N, Tail, Tail), Bs1),
    (   End == inf -> Ends1 = Ends ; put_assoc(Name, Ends, End, Ends1) ),
    N1 is N + 1,
    run(Rest, Me, world(C, N1, Cal1, Bs1, Ws, Ps, Ends1)).
act(hold(Time), Rest, Me, world(C, N, Cal, Bs, Ws, Ps, Ends)) :-
    At is C + Time,
    put_assoc(At-N, Cal, Me-Rest, Cal1),
    N1 is N + 1,
    let_go(world(C, N1, Cal1, Bs, Ws, Ps, Ends)).
act(send(Message, To), Rest, Me, world(C, N, Cal, Bs, Ws, Ps, Ends)) :-
    get_assoc(To, Bs, box(Made, Front, [Message | Tail])),
    put_assoc(To, Bs, box(Made, Front, Tail), Bs1),
    (   get_assoc(To, Ws, Waiting)
    ->  del_assoc(To, Ws, _, Ws1),
        put_assoc(C-N, Cal, To-Waiting, Cal1),
        N1 is N + 1
    ;   Ws1 = Ws, Cal1 = Cal, N1 = N
    ),
    run(Rest, Me, world(C, N1, Cal1, Bs1, Ws1, Ps, Ends)).
act(wait_for(Message), Rest, Me, world(C, N, Cal, Bs, Ws, Ps, Ends)) :-
    get_assoc(Me, Bs, box(Made, Front, Tail)),
    (   fits(Front, Message)
    ->  taken(Front, Message, Left),
        put_assoc(Me, Bs, box(Made, Left, Tail), Bs1),
        run(Rest, Me, world(C, N, Cal, Bs1, Ws, Ps, Ends))
    ;   put_assoc(Me, Ws, again(Message, Rest), Ws1),
        let_go(world(C, N, Cal, Bs, Ws1, Ps, Ends))
    ).
act(wait(Goal), Rest, Me, World) :-
    (   call(Goal)
    ->  run(Rest, Me, World)
    ;   World = world(C, N, Cal, Bs, Ws, Ps, Ends),
        get_assoc(Me, Bs, box(Made, _, _)),
        ord_union(Ps, [parked(Made, Me, Goal, Rest)], Ps1),
        let_go(world(C, N, Cal, Bs, Ws, Ps1, Ends))
    ).
act(now(C), Rest, Me, World) :-
    World = world(C, _, _, _, _, _, _),
    run(Rest, Me, World).

fits(Front, Message) :- \+ \+ taken(Front, Message, _).

% taken(Front, Message, Left): a message of an open list, and those that are left.
taken(Front, _, _) :- var(Front), !, fail.
taken([Last | Rest], Message, Left) :- var(Rest), !, Last = Message, Left = Rest.
taken([Message | Rest], Message, Rest).
taken([First | Rest], Message, [First | Left]) :- taken(Rest, Message, Left).

% let_go(World): those that are parked try their conditions in order, and then the clock moves.
let_go(World) :- World = world(_, _, _, _, _, Ps, _), retry(Ps, World).

retry([], World) :- next(World).
retry([parked(Made, Name, Goal, Rest) | More], World) :-
    (   call(Goal)
    ->  World = world(C, N, Cal, Bs, Ws, Ps, Ends),
        exclude(is_of(Made), Ps, Ps1),
        run(Rest, Name, world(C, N, Cal, Bs, Ws, Ps1, Ends))
    ;   retry(More, World)
    ).

is_of(Made, parked(Made, _, _, _)).

% next(World): the first entry of the calendar. Where there is none, nobody may wait.
next(world(_, _, Cal, _, Ws, Ps, _)) :- empty_assoc(Cal), !, empty_assoc(Ws), Ps == [].
next(world(_, N, Cal, Bs, Ws, Ps, Ends)) :-
    del_min_assoc(Cal, Time-_, Name-Goal, Cal1),
    forall(gen_assoc(_, Ends, End), End >= Time),
    resume(Goal, Name, world(Time, N, Cal1, Bs, Ws, Ps, Ends)).

resume(again(Message, Rest), Name, World) :- !, act(wait_for(Message), Rest, Name, World).
resume(Goal, Name, World) :- run(Goal, Name, World).
