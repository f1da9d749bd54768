#!/usr/bin/env python3
"""The benchmarks of processes for SimPy 2, as Debian's python3-simpy has it.

processes.py NAME    items, pipeline or sends

There is no shop, joinery, link or bank: SimPy doesn't go back.
"""
import sys

from SimPy.Simulation import Process, Simulation, Store, get, hold, put


class Source(Process):
    """Puts items into a store, one each unit of time."""

    def run(self, store, count):
        for number in range(count):
            yield hold, self, 1
            yield put, self, store, [number]


class Stage(Process):
    """Takes items from a store, and puts each into the next, some time later."""

    def run(self, store, after, count, time):
        for _ in range(count):
            yield get, self, store, 1
            item = self.got[0]
            if after is not None:
                yield hold, self, time
                yield put, self, after, [item]


class Alone(Process):
    """Puts items into a store and then takes them all."""

    def run(self, store, count):
        for number in range(count):
            yield put, self, store, [number]
        for number in range(count):
            yield get, self, store, 1
            assert self.got[0] == number


def start(simulation, process, *given):
    """Starts a process at time 0."""
    simulation.activate(process, process.run(*given))


def items(simulation):
    """A producer and a consumer of 3,000 items."""
    store = Store(capacity="unbounded", sim=simulation)
    start(simulation, Stage(sim=simulation), store, None, 3000, 0)
    start(simulation, Source(sim=simulation), store, 3000)


def pipeline(simulation):
    """Ten items through 1,000 processes."""
    stores = [Store(capacity="unbounded", sim=simulation) for _ in range(1001)]
    start(simulation, Stage(sim=simulation), stores[1000], None, 10, 0)
    for number in range(1000):
        start(simulation, Stage(sim=simulation), stores[number], stores[number + 1], 10, 1)
    start(simulation, Source(sim=simulation), stores[0], 10)


def sends(simulation):
    """10,000 messages to one store, and then as many taken."""
    start(simulation, Alone(sim=simulation), Store(capacity="unbounded", sim=simulation), 10000)


def main():
    simulation = Simulation()
    {"items": items, "pipeline": pipeline, "sends": sends}[sys.argv[1]](simulation)
    print(simulation.simulate(until=1_000_000))


if __name__ == "__main__":
    main()
