#!/usr/bin/env python3
"""Dining philosophers on a small runtime of behaviours by threads: philosophers.py [THREADS] [--long ROWS] [--audit] [--names FILE].

It writes the record of its run to standard output, and what its rows and cowns are called to FILE. recorders/boc_record.py records;
docs/RECORDING.md says where its calls belong. A tick is a microsecond. If the run hangs, the record so far is written.

With --long a thousand philosophers dine, of which ten have their meals counted, and there are as many meals as make at least so many rows. That is too much
for a record: `boc cut` cuts a window out of it, and `boc why` says of that window that the counting is what limits the run.
"""
import argparse
import collections
import contextlib
import os
import queue
import signal
import sys
import threading
import time

sys.path.insert(0, os.path.join(os.path.dirname(os.path.abspath(__file__)), "..", "..", "recorders"))
import boc_record

# A run that takes longer hangs, and so does a long one that takes so much longer.
PATIENCE = 10
LONG_PATIENCE = 100

# A long run has so many philosophers, and one of so many has its meals counted.
LONG_SEATS = 1000
COUNTED = 100


class Cown:
    """A value, and the behaviours that asked for it: the first of them holds it, or will hold it once it has its other cowns too."""

    def __init__(self, asked, value):
        self.asked = asked
        self.value = value
        self.lock = threading.Lock()    # It guards the requests; the value is guarded by them.
        self.requests = collections.deque()


class Held:
    """A cown as the body of its holder sees it."""

    def __init__(self, runtime, row, cown):
        self.runtime = runtime
        self.row = row
        self.cown = cown

    @property
    def value(self):
        return self.cown.value

    @value.setter
    def value(self, value):
        self.cown.value = value
        self.runtime.recorder.wrote(self.row, self.cown.asked)


class Behaviour:
    """A body with its arguments and its cowns, from its spawn to its end."""

    def __init__(self, body, arguments, cowns):
        self.body = body
        self.arguments = arguments
        self.cowns = cowns
        self.row = None
        self.missing = len(cowns)
        self.lock = threading.Lock()    # It guards what is missing, for two cowns may come at once.

    def gets_one(self):
        """Takes one more cown, and returns whether it was the last one missing."""
        with self.lock:
            self.missing -= 1
            return self.missing == 0


class Runtime:
    def __init__(self, threads, recorder):
        self.threads = threads
        self.recorder = recorder
        self.ready = queue.SimpleQueue()    # Behaviours that have all their cowns; None stops a thread.
        self.here = threading.local()
        self.lock = threading.Lock()        # It guards how many behaviours have not ended.
        self.alive = 0

    def cown(self, name, value):
        return Cown(self.recorder.cown(name), value)

    def when(self, body, *cowns, arguments=()):
        """Spawns a behaviour of the one that runs here, which continues at once. It asks for all its cowns at once."""
        behaviour = Behaviour(body, arguments, cowns)
        with self.lock:
            self.alive += 1
        is_ready = not cowns
        rising = sorted(cowns, key=lambda cown: cown.asked.number)
        with contextlib.ExitStack() as locks:
            # Several locks are taken in the order of the cowns, so no two spawns wait for each other.
            for cown in rising:
                locks.enter_context(cown.lock)
            parent = getattr(self.here, "behaviour", None)
            behaviour.row = self.recorder.spawn(parent and parent.row, body.__name__, [cown.asked for cown in cowns], arguments)
            for cown in rising:
                cown.requests.append(behaviour)
                if cown.requests[0] is behaviour:
                    is_ready |= behaviour.gets_one()
        if is_ready:
            self.ready.put(behaviour)

    def release(self, behaviour):
        """Each cown goes to the next behaviour that asked for it."""
        for cown in behaviour.cowns:
            with cown.lock:
                cown.requests.popleft()
                if cown.requests and cown.requests[0].gets_one():
                    self.ready.put(cown.requests[0])

    def serve(self, behaviour):
        self.here.behaviour = behaviour
        # It has all its cowns: the ends of all behaviours that had one of them before are recorded.
        self.recorder.start(behaviour.row)
        behaviour.body(*behaviour.arguments, *(Held(self, behaviour.row, cown) for cown in behaviour.cowns))
        # The end comes before a cown is released: the next start on it may be recorded at once.
        self.recorder.end(behaviour.row)
        self.release(behaviour)

    def work(self):
        for behaviour in iter(self.ready.get, None):
            self.serve(behaviour)
            with self.lock:
                self.alive -= 1
                has_finished = self.alive == 0
            if has_finished:
                for _ in range(self.threads):
                    self.ready.put(None)

    def run(self, main):
        """Runs a body over no cowns, and all that it spawns."""
        self.when(main)
        workers = [threading.Thread(target=self.work, daemon=True) for _ in range(self.threads)]
        for worker in workers:
            worker.start()
        for worker in workers:
            worker.join()


def dine(runtime, seats=5, meals=3):
    """Each philosopher thinks, eats with the two forks beside the plate, has the meal counted, and thinks again until it is full."""
    forks = [runtime.cown(f"fork[{seat}]", 0) for seat in range(seats)]
    eaten = runtime.cown("eaten", 0)

    def think(who, left):
        time.sleep(0.0005)
        runtime.when(eat, forks[who], forks[(who + 1) % seats], arguments=(who, left))

    def eat(who, left, left_fork, right_fork):
        left_fork.value += 1
        right_fork.value += 1
        time.sleep(0.001)
        runtime.when(count, eaten)
        if left > 1:
            runtime.when(think, arguments=(who, left - 1))

    def count(eaten):
        eaten.value += 1

    def main():
        for who in range(seats):
            runtime.when(think, arguments=(who, meals))

    runtime.run(main)


def dine_long(runtime, seats, meals):
    """Many philosophers think and eat; one of so many has its meals counted, which takes a while."""
    forks = [runtime.cown(f"fork[{seat}]", 0) for seat in range(seats)]
    eaten = runtime.cown("eaten", 0)

    def think(who, left):
        runtime.when(eat, forks[who], forks[(who + 1) % seats], arguments=(who, left))

    def eat(who, left, left_fork, right_fork):
        left_fork.value += 1
        right_fork.value += 1
        if who % COUNTED == 0:
            runtime.when(count, eaten, arguments=(who, left))
        elif left > 1:
            runtime.when(think, arguments=(who, left - 1))

    def count(who, left, eaten):
        eaten.value = eaten.value + 1
        time.sleep(0.001)
        if left > 1:
            runtime.when(think, arguments=(who, left - 1))

    def main():
        for who in range(seats):
            runtime.when(think, arguments=(who, meals))

    runtime.run(main)


def write(recorder, names, whole=False):
    try:
        with open(names, "w", encoding="ascii") if names else contextlib.nullcontext() as file:
            report = recorder.write(sys.stdout, file, whole=whole)
    except boc_record.Failed as failed:
        sys.exit(f"boc_record: {failed}")
    sys.stdout.flush()
    for line in report.lines:
        print(line, file=sys.stderr)


def main():
    parser = argparse.ArgumentParser(description="Runs dining philosophers by threads, and writes the record of the run.")
    parser.add_argument("threads", nargs="?", type=int, default=4, choices=range(1, 65), metavar="THREADS", help="how many, 4 if not given")
    parser.add_argument("--long", type=int, metavar="ROWS", help="a long run, of at least so many rows")
    parser.add_argument("--audit", action="store_true", help="keeps the order in which things happened, for boc check")
    parser.add_argument("--names", metavar="FILE", help="writes what rows and cowns are called to FILE")
    words = parser.parse_args()
    memory = (words.long or 0) * 2048 + (64 << 20)
    recorder = boc_record.Recorder(mode=boc_record.AUDIT if words.audit else boc_record.PROFILE, knows_writes=True, memory=memory)

    def give_up(*_):
        write(recorder, words.names, bool(words.long))
        os._exit(1)

    signal.signal(signal.SIGALRM, give_up)
    signal.alarm(PATIENCE * LONG_PATIENCE if words.long else PATIENCE)
    runtime = Runtime(words.threads, recorder)
    if words.long:
        dine_long(runtime, LONG_SEATS, 1 + words.long // (2 * LONG_SEATS))
    else:
        dine(runtime)
    signal.alarm(0)
    write(recorder, words.names, bool(words.long))


if __name__ == "__main__":
    main()
