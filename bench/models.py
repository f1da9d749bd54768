"""The models of bench/run: each function gives the text of a model, and its goal. bench/README.md says what each is for."""
import pathlib
import random

# Where the models of the examples are.
EXAMPLES = pathlib.Path(__file__).resolve().parent.parent / "examples"

# How deep the terms are that are evaluated, compared and copied.
DEEP = 90_000

APPEND = "app([],L,L). app([H|T],L,[H|R]) :- app(T,L,R).\n"


def chain(functor, count):
    """A term of so many nested functors around `z`."""
    return functor + "(" + (functor + "(") * (count - 1) + "z" + ")" * count


def reverse():
    """Naive reverse of a list of 400, six times."""
    numbers = ",".join(str(n) for n in range(400))
    model = APPEND + "nrev([],[]). nrev([H|T],R) :- nrev(T,S), app(S,[H],R).\n"
    calls = ", ".join("nrev(L,_)" for _ in range(6))
    return model + f"given([{numbers}]).\ngo :- given(L), {calls}.\n", "go"


def loop():
    """A loop that the budget ends: 1,000,000 steps."""
    return "p :- p.\n", "p"


def failures():
    """100,000 failures above 900 open choices, and then others, up to the budget of 1,000,000 steps."""
    numbers = "".join(f"n({n}). " for n in range(317))
    model = "c. c.\ndeep(z). deep(s(N)) :- c, deep(N).\n" + numbers
    return model + "\n" + f"go :- deep({chain('s', 900)}), n(_), n(_), fail.\n", "go"


def conditions():
    """Turns of a condition over a structure that grows."""
    model = "grow(z,_). grow(s(N),T) :- ( T = x -> true ; true ), grow(N,f(T)).\n"
    model = model.replace("T = x", "same(T,x)") + "same(X,X).\n"
    return model + f"go :- grow({chain('s', 900)},a), fail.\n" + "go.\n", "go"


def counting(count):
    """`X is X0 + 1` so many times: three steps for each."""
    return "up(M,M) :- !.\nup(N,M) :- K is N + 1, up(K,M).\n" + f"go :- up(0,{count}).\n", "go"


def increments():
    """`X is X0 + 1` 333,000 times."""
    return counting(333_000)


def million():
    """`X is X0 + 1` a million times."""
    return counting(1_000_000)


def length():
    """The length of a list of 300,000, by a recursion that adds on its way back."""
    zeros = ",".join(["0"] * 300_000)
    model = "len([],0).\nlen([_|T],N) :- len(T,M), N is M + 1.\n"
    return model + f"given([{zeros}]).\ngo :- given(L), len(L,N), N =:= 300000.\n", "go"


def operations():
    """A value of thirteen operations, 100,000 times."""
    model = "mix(X,Y) :- Y is ((X * 3 + 7) mod 1000 - X // 2) * 2 + (X /\\ 255) - (X >> 1) + abs(X - 500).\n"
    return model + "go :- between(1,100000,X), mix(X,Y), Y < -1000000000000, !, fail.\ngo.\n", "go"


def terms(count):
    """So many different terms of four kinds, in no order."""
    chance = random.Random(1)
    kinds = ["{}", "a{}", "f({})", "g(b,{})"]
    return [chance.choice(kinds).format(number) for number in chance.sample(range(10 * count), count)]


def sorting():
    """Quick sort of 8,000 terms by the standard order."""
    model = APPEND + "part([],_,[],[]).\npart([X|Xs],P,[X|A],B) :- X @< P, !, part(Xs,P,A,B).\n"
    model += "part([X|Xs],P,A,[X|B]) :- part(Xs,P,A,B).\nqsort([],[]).\n"
    model += "qsort([P|Xs],S) :- part(Xs,P,A,B), qsort(A,X), qsort(B,Y), app(X,[P|Y],S).\n"
    model += "ordered([_]).\nordered([X,Y|T]) :- X @< Y, ordered([Y|T]).\n"
    return model + f"given([{','.join(terms(8000))}]).\ngo :- given(L), qsort(L,S), ordered(S).\n", "go"


def deep():
    """A sum 90,000 deep, compared, copied, compared with its copy and evaluated, 20 times."""
    model = "s(1" + "+1" * DEEP + ").\n"
    model += f"one :- s(X), s(Y), X == Y, copy_term(X,Z), Z == X, N is X, N =:= {DEEP + 1}.\n"
    return model + "go :- between(1,20,_), \\+ one, !, fail.\ngo.\n", "go"


def copies():
    """A sum 90,000 deep of 45,000 variables, each of them twice, copied twice, 20 times."""
    names = [f"V{number}" for number in range(DEEP // 2)]
    model = "s(" + "+".join(names + names) + ").\n"
    model += "one :- s(X), copy_term(X,Y), X \\== Y, copy_term(Y,Z), Z = X.\n"
    return model + "go :- between(1,20,_), \\+ one, !, fail.\ngo.\n", "go"


def parts():
    """Terms made by functor, by arg and by =.., and atoms made by atom_codes, 40,000 times."""
    model = "one(I) :- functor(T,f,3), arg(1,T,I), T =.. [_|As], U =.. [g|As], U = g(I,_,_),\n"
    model += "    C is 97 + I mod 26, atom_codes(A,[C,0'b]), atom_length(A,2).\n"
    return model + "go :- between(1,40000,I), \\+ one(I), !, fail.\ngo.\n", "go"


def items():
    """A producer and a consumer of 3,000 items, one each unit of time."""
    model = "producer(0).\nproducer(N) :- N > 0, hold(1), send(item(N), consumer), M is N - 1, producer(M).\n"
    model += "consumer(0).\nconsumer(N) :- N > 0, wait_for(item(_)), M is N - 1, consumer(M).\n"
    return model + "go :- new(consumer(3000), consumer, 0, inf), new(producer(3000), producer, 0, inf).\n", "go"


def pipeline():
    """Ten items go through 1,000 processes, each of which holds an item for one unit of time."""
    names = ",".join(f"p{number}" for number in range(1, 1001))
    model = "stage(_,0).\nstage(Next,N) :- N > 0, wait_for(item(I)), hold(1), send(item(I), Next),\n"
    model += "    M is N - 1, stage(Next,M).\n"
    model += "sink(0).\nsink(N) :- N > 0, wait_for(item(_)), M is N - 1, sink(M).\n"
    model += "source(0).\nsource(N) :- N > 0, send(item(N), p1), hold(1), M is N - 1, source(M).\n"
    model += "line([Last]) :- new(stage(sink,10), Last, 0, inf).\n"
    model += "line([Name,Next|Names]) :- new(stage(Next,10), Name, 0, inf), line([Next|Names]).\n"
    model += f"names([{names}]).\n"
    return model + "go :- new(sink(10), sink, 0, inf), names(L), line(L), new(source(10), source, 0, inf).\n", "go"


def sends():
    """10,000 sends to one box, and then as many messages taken, the oldest first."""
    model = "send_all(0).\nsend_all(N) :- N > 0, send(m(N), main), M is N - 1, send_all(M).\n"
    model += "take_all(0).\ntake_all(N) :- N > 0, wait_for(m(X)), !, X = N, M is N - 1, take_all(M).\n"
    return model + "go :- send_all(10000), take_all(10000).\n", "go"


def shop():
    """A job shop of two machines whose search takes some 100,000 steps and finds no plan in time."""
    jobs = [("a", 3, 4, 16), ("b", 2, 3, 8), ("c", 4, 2, 16), ("d", 1, 4, 16), ("e", 3, 3, 16)]
    model = "".join(f"job({name},{first},{second},{due}).\n" for name, first, second, due in jobs)
    model += "sel(X,[X|Xs],Xs).\nsel(X,[Y|Xs],[Y|Ys]) :- sel(X,Xs,Ys).\n"
    model += "first([]).\nfirst(Js) :- sel(j(J,D,_),Js,Rest), job(J,T,_,_), hold(T), D = yes, first(Rest).\n"
    model += "second([]).\nsecond(Js) :- sel(j(J,D,E),Js,Rest), wait(nonvar(D)), job(J,_,T,_), hold(T), E = yes,\n"
    model += "    second(Rest).\n"
    model += "due([]).\ndue([j(J,_,E)|Js]) :- job(J,_,_,T), new(wait(nonvar(E)), J, 0, T), due(Js).\n"
    names = ",".join(f"j({name},_,_)" for name, _, _, _ in jobs)
    model += f"go :- Js = [{names}], new(first(Js), first, 0, inf), new(second(Js), second, 0, inf),\n"
    return model + "    due(Js).\n", "go"


def queens():
    """All ways to set nine queens, by failing through them: `queens(9,Qs)` has 352 answers."""
    model = "range(N,N,[N]) :- !.\nrange(M,N,[M|Ns]) :- M < N, M1 is M + 1, range(M1,N,Ns).\n"
    model += "sel(X,[X|Xs],Xs).\nsel(X,[Y|Xs],[Y|Ys]) :- sel(X,Xs,Ys).\n"
    model += "safe(_,_,[]).\nsafe(Q,D,[P|Ps]) :- P =\\= Q + D, P =\\= Q - D, D1 is D + 1, safe(Q,D1,Ps).\n"
    model += "place([],Qs,Qs).\nplace(Free,Placed,Qs) :- sel(Q,Free,Left), safe(Q,1,Placed), place(Left,[Q|Placed],Qs).\n"
    model += "queens(N,Qs) :- range(1,N,Free), place(Free,[],Qs).\n"
    return model + "go :- queens(9,_), fail.\ngo.\n", "go"


def zebra():
    """The puzzle of the five houses, to its end, which is one solution: who has the zebra."""
    model = "member(X,[X|_]).\nmember(X,[_|T]) :- member(X,T).\n"
    model += "right_of(A,B,[B,A|_]).\nright_of(A,B,[_|T]) :- right_of(A,B,T).\n"
    model += "next_to(A,B,L) :- right_of(A,B,L).\nnext_to(A,B,L) :- right_of(B,A,L).\n"
    model += "houses([h(_,norwegian,_,_,_),_,h(_,_,_,milk,_),_,_]).\n"
    model += "zebra(Who) :- houses(Hs),\n"
    model += "    member(h(red,englishman,_,_,_),Hs), member(h(green,_,_,coffee,_),Hs),\n"
    model += "    member(h(_,spaniard,dog,_,_),Hs), member(h(_,ukrainian,_,tea,_),Hs),\n"
    model += "    right_of(h(green,_,_,_,_),h(ivory,_,_,_,_),Hs), member(h(_,_,snails,_,winston),Hs),\n"
    model += "    member(h(yellow,_,_,_,kools),Hs), next_to(h(_,_,_,_,chesterfield),h(_,_,fox,_,_),Hs),\n"
    model += "    next_to(h(_,_,_,_,kools),h(_,_,horse,_,_),Hs), member(h(_,_,_,juice,lucky),Hs),\n"
    model += "    member(h(_,japanese,_,_,parliament),Hs), next_to(h(_,norwegian,_,_,_),h(blue,_,_,_,_),Hs),\n"
    model += "    member(h(_,Who,zebra,_,_),Hs).\n"
    return model + "go(Who) :- between(1,20,I), zebra(Who), I >= 20.\n", "go(Who)"


def tak():
    """Takeuchi's function of 18, 12 and 6: 63,609 calls."""
    model = "tak(X,Y,Z,Z) :- X =< Y, !.\n"
    model += "tak(X,Y,Z,A) :- X1 is X - 1, Y1 is Y - 1, Z1 is Z - 1,\n"
    model += "    tak(X1,Y,Z,A1), tak(Y1,Z,X,A2), tak(Z1,X,Y,A3), tak(A1,A2,A3,A).\n"
    return model + "go(A) :- tak(18,12,6,A).\n", "go(A)"


def table():
    """A table of 10,000 facts, and 50,000 look-ups in it by first argument."""
    facts = "".join(f"row({n},{n * 7919 % 10000}).\n" for n in range(10_000))
    model = "look(0,S,S) :- !.\nlook(N,S,T) :- K is N * 37 mod 10000, row(K,V), S1 is (S + V) mod 1000003,\n"
    return model + "    M is N - 1, look(M,S1,T).\n" + facts + "go(T) :- look(50000,0,T).\n", "go(T)"


def names_table():
    """A table of 10,000 facts of atoms, and a walk of 50,000 steps from atom to atom through it."""
    facts = "".join(f"edge(n{n},n{(n * 7921 + 1) % 10000}).\n" for n in range(10_000))
    model = "walk(0,X,X) :- !.\nwalk(N,X,Z) :- edge(X,Y), M is N - 1, walk(M,Y,Z).\n"
    return model + facts + "go(Z) :- walk(50000,n0,Z).\n", "go(Z)"


def derive():
    """The derivative of four expressions, 5,000 times: terms are built, and clauses told apart by first argument."""
    model = "d(U+V,X,DU+DV) :- !, d(U,X,DU), d(V,X,DV).\nd(U-V,X,DU-DV) :- !, d(U,X,DU), d(V,X,DV).\n"
    model += "d(U*V,X,DU*V+U*DV) :- !, d(U,X,DU), d(V,X,DV).\n"
    model += "d(U/V,X,(DU*V-U*DV)/(V*V)) :- !, d(U,X,DU), d(V,X,DV).\n"
    model += "d(pow(U,N),X,DU*N*pow(U,M)) :- !, M is N - 1, d(U,X,DU).\nd(-U,X,-DU) :- !, d(U,X,DU).\n"
    model += "d(exp(U),X,exp(U)*DU) :- !, d(U,X,DU).\nd(log(U),X,DU/U) :- !, d(U,X,DU).\nd(X,X,1) :- !.\nd(_,_,0).\n"
    model += "all :- d((x+1)*((pow(x,2)+2)*(pow(x,3)+3)),x,_), d(x/x/x/x/x/x/x/x/x/x,x,_),\n"
    model += "    d(log(log(log(log(log(log(log(log(log(log(x)))))))))),x,_), d(x*x*x*x*x*x*x*x*x*x,x,_).\n"
    return model + "go :- between(1,5000,_), \\+ all, !, fail.\ngo.\n", "go"


def backtracks():
    """A loop of `between` that fails 100,000 times."""
    return "go :- between(1,100000,X), X < 0.\ngo.\n", "go"


def facts():
    """100,000 failures through facts, with two choices open: 317 times 317 of them."""
    numbers = "".join(f"n({n}).\n" for n in range(317))
    return numbers + "go :- n(_), n(_), fail.\ngo.\n", "go"


def large():
    """1,000,000 facts are loaded, and one of them is asked for."""
    return "".join(f"f({n}).\n" for n in range(1_000_000)), "f(500000)"


def long():
    """Some 10,000,000 steps that go back all the while."""
    return "go :- between(1,2500000,X), Y is X * 2, Y < 0.\ngo.\n", "go"


def grown():
    """Some 10,000,000 steps forward, with no choice to go back to."""
    return counting(3_333_300)


def example(name):
    """The text of a model of examples/."""
    return (EXAMPLES / name).read_text(encoding="utf-8")


def joinery():
    """The first plan of examples/joinery: four orders, a saw and a paint booth."""
    return example("joinery"), "plan(Saw, Booth)"


def link():
    """The first course of examples/link in which a frame is confirmed in time, though two are lost."""
    return example("link"), "Lost = [_,_,_], transfer(1, 13, Lost)"


def bank():
    """The first breaks of examples/bank."""
    return example("bank"), "breaks(Anna, Otto)"


def sample():
    """The program's own model of 30,000 processes, by --sample: as many choices stand open, and one failure takes all back."""
    return "", "30000"


BENCHMARKS = [
    reverse, loop, failures, conditions,
    increments, million, length, operations, sorting, deep, copies, parts,
    queens, zebra, tak, table, names_table, derive, backtracks, facts,
    large, long, grown,
    items, pipeline, sends, shop, joinery, link, bank, sample,
]

# Those with more processes than main.
PROCESSES = [items, pipeline, sends, shop, joinery, link, bank, sample]

# Those of them that processes.py has too.
IN_SIMPY = [items, pipeline, sends]

# Those whose model the program makes: in place of a goal they have a number.
SAMPLES = [sample]

# Those that no other system runs: two have no end without a budget of steps, one needs the program's own option.
ALONE = [loop, failures, sample]

# The steps of the benchmarks that take more than 1,000,000, for the option --steps.
STEPS = {
    "million": 4_000_000,
    "tak": 4_000_000,
    "derive": 4_000_000,
    "long": 20_000_000,
    "grown": 20_000_000,
}
