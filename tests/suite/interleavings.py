"""Which ends a program comes to by so many workers, found by walking through all interleavings of the dispatcher's steps, in whatever order workers take turns:
each end that `boc outcomes` tells of is one of these, and of programs with few ends it finds them all.

The steps are those of docs/ARCHITECTURE.md, the machine, told plainly once more. A behaviour is named by the name of the one that spawns it and its place among
what that one spawns, so that the same behaviour has the same name whatever came first. Workers are alike: those that serve nothing are only counted.
"""
import random
from functools import partial
from typing import NamedTuple

from .outcomes import found_ends
from .programs import Behaviour, Execution, Program
from .random_programs import random_program

# Programs by chance, each from this seed and its number, by one worker to four. One with more states than this is too large, and another one takes its place.
# At least so many of all come to several ends.
SEED = 20261206
PROGRAMS = 300
MOST_WORKERS = 4
MOST_STATES = 300
SEVERAL = 80

# How many runs are drawn of each, in each of two ways.
RUNS = 60
WAYS = [[], ["--depth", "3"]]

# So many of the first programs are walked through once more without haste, as far as that has at most so many states.
PLAINLY = 60
MOST_PLAIN = 2_500

# Programs of few ends, by how many workers, in how many runs drawn by which depth all of them are found, and how many there are. The first three are examples.
FEW = {
    "race.boc": (None, 4, 2_000, "3", 2),
    "commute.boc": (None, 2, 500, "3", 1),
    "two_orders.boc": (None, 2, 500, "3", 2),
    "two that spawn twice": (b"""cown a = 1; cown b = 0; cown c = 0;
def add(k; x) { x = x + k; }
def triple(; x) { x = x * 3; }
def left(; y) { when add(1; a); when add(5; a); }
def right(; y) { when triple(; a); when triple(; a); }
main { when left(; b); when right(; c); }""", 2, 10_000, "5", 6),
    "two cowns, each asked for first": (b"""cown a = 1; cown b = 2; cown c = 0; cown d = 0; cown e = 0;
def swap(; x, y) { let t = x; x = y; y = t; }
def add(; x) { x = x + 10; }
def double(; x) { x = x * 2; }
def one(; z) { when swap(; a, b); }
def two(; z) { when add(; a); }
def three(; z) { when double(; b); }
main { when one(; c); when two(; d); when three(; e); }""", 3, 10_000, "5", 4),
    "one that looks first": (b"""cown a = 0; cown b = 0; cown c = 0; cown d = 0;
def set(k; x) { x = k; }
def look(; x, y) { if x == 1 { y = 5; when set(9; x); } else { when set(7; x); } }
def one(; z) { when set(1; a); }
def two(; z) { when look(; a, b); }
main { when one(; c); when two(; d); }""", 4, 10_000, "5", 3),
}

# Five behaviours that each spawn one over the same cown: 120 orders by the rules of runs, of which so many come about by so many workers.
FIVE = b"""cown a = 1; cown b[5] = 0;
def put(k; x) { x = x * 7 + k; }
def go(k; y) { when put(k; a); }
main { let k = 0; repeat 5 { when go(k; b[k]); k = k + 1; } }
"""
OF_FIVE = {1: 1, 2: 16, 3: 54, 4: 96}

# What the behaviours of racing programs do to one cown and to two, and which of them they spawn.
ON_ONE = ["x = x * 2 + 1;", "x = x - 3;", "if x > 2 { x = x - 5; } else { x = x * 3; }", "x = x * x % 7;", "work 3; x = 4;"]
ON_TWO = ["let t = x; x = y; y = t;", "x = x + y;", "if x > y { y = x; } else { x = x + 1; }", "if x < y { when one0(; x); } y = y * 2;",
          "when one1(; y); x = 9;"]
SPAWNS = ["when one0(; a);", "when one1(; a);", "when one0(; b);", "when two0(; a, b);", "when two0(; b, a);", "when two1(; a, b);"]

# How far an open behaviour is. Asking, flagging and leaving are at one of its cowns, in rising order.
ASKING, EXCHANGED, FLAGGING, OWNING, WAITING, READY, RUNNING, LEAVING = range(8)


class Open(NamedTuple):
    """A behaviour that is spawned and not gone, how far it is, and at which of its cowns; and where it runs, how many it has spawned, and the name of the one
    that it is spawning."""
    behaviour: Behaviour
    cowns: tuple
    stage: int
    at: int = 0
    inputs: tuple = ()
    spawned: int = 0
    child: tuple = None


class State:
    """The values of the cowns; for each cown the names of those that asked for it, in the order in which they did; the names of those that are ready, in order;
    and by name what is open."""

    def __init__(self, values, queues, ready, opened):
        self.values, self.queues, self.ready, self.opened = values, queues, ready, opened

    def copied(self):
        return State(list(self.values), list(self.queues), self.ready, dict(self.opened))

    def key(self):
        return tuple(self.values), tuple(self.queues), self.ready, frozenset(self.opened.items())

    def set(self, name, **parts):
        self.opened[name] = self.opened[name]._replace(**parts)

    def is_settled(self, name, cown):
        own = self.opened[name]
        return own.stage > EXCHANGED or own.cowns.index(cown) < own.at

    def is_flagged(self, name, cown):
        own = self.opened[name]
        return own.stage > FLAGGING or own.stage == FLAGGING and own.cowns.index(cown) < own.at

    def wake(self, name):
        """It is ready where it waits and is first at all its cowns; where it waits, its requests are settled."""
        own = self.opened[name]
        if own.stage == WAITING and all(self.queues[cown][0] == name for cown in own.cowns):
            self.set(name, stage=READY)
            self.ready += (name,)

    def served(self):
        return [name for name, own in self.opened.items() if own.stage in (RUNNING, LEAVING)]


class TooLarge(Exception):
    """There are more states than are looked at."""


class Walk:
    """All states that a program comes to by so many workers, up to a number of them.

    Swap, Own, Unhook and Pass decide what other workers find. Start, Open, Settle, Flag and Finish don't: once one of them is due it stays so, and whether it
    comes before or after another worker's step can't be told. So with haste they are made as soon as they are due, and only what is then left is a state.
    """

    def __init__(self, program, workers, most, has_haste=True):
        self.program, self.workers, self.most, self.has_haste = program, workers, most, has_haste
        self.meanings = {}

    def ends(self):
        main = State(list(self.program.initial), [()] * len(self.program.cowns), ((),), {(): Open(Behaviour(0, (), ()), (), READY)})
        ends, seen, states = set(), set(), self.hurried([main])
        while states:
            state = states.pop()
            key = state.key()
            if key in seen:
                continue
            seen.add(key)
            if len(seen) > self.most:
                raise TooLarge
            afters = self.afters(state)
            if not state.opened:
                ends.add(self.text(state.values))
            elif not afters:
                raise AssertionError("nobody can step, and not all is over")
            states += self.hurried(afters)
        return ends

    def text(self, values):
        return "".join(f"{name} {value}\n" for name, value in zip(self.program.cowns, values)).encode()

    def afters(self, state):
        """The states behind a turn of each worker; one that can't go on has none."""
        turns = [] if self.has_haste else [self.start] + [partial(self.plain_turn, name=name) for name in state.served()]
        turns += [partial(self.deciding_turn, name=name) for name in state.served()]
        copies = [(state.copied(), turn) for turn in turns]
        return [after for after, turn in copies if turn(after)]

    def hurried(self, states):
        """The states, gone on as far as haste has it."""
        for state in states if self.has_haste else []:
            is_changed = True
            while is_changed:
                is_changed = self.start(state)
                for name in state.served():
                    while name in state.opened and self.plain_turn(state, name):
                        is_changed = True
        return states

    def meaning(self, own):
        key = own.behaviour, own.inputs
        if key not in self.meanings:
            self.meanings[key] = Execution(self.program, *key).meaning()
        return self.meanings[key]

    # Steps, each of which changes the state and says so, or can't be made: then it changes nothing.

    def start(self, state):
        """A worker that serves nothing takes the first that is ready."""
        if not state.ready or len(state.served()) == self.workers:
            return False
        name, *ready = state.ready
        state.ready = tuple(ready)
        state.set(name, stage=RUNNING, inputs=tuple(state.values[cown] for cown in state.opened[name].behaviour.cowns))
        return True

    def plain_turn(self, state, name):
        """Open, Settle, Flag or Finish, if one of them is due to the worker that serves this behaviour."""
        own = state.opened[name]
        if own.child is not None:
            return self.settle_or_flag(state, own.child)
        if own.stage == LEAVING:
            return False
        meaning = self.meaning(own)
        if own.spawned < len(meaning.wishes):
            child, behaviour = name + (own.spawned,), meaning.wishes[own.spawned][1]
            state.opened[child] = Open(behaviour, tuple(sorted(behaviour.cowns)), ASKING if behaviour.cowns else OWNING)
            state.set(name, spawned=own.spawned + 1, child=child)
            return True
        for cown, value in zip(own.behaviour.cowns, meaning.outputs):
            state.values[cown] = value
        state.opened[name] = Open(own.behaviour, own.cowns, LEAVING)
        if not own.cowns:
            del state.opened[name]
        return True

    def settle_or_flag(self, state, name):
        own = state.opened[name]
        is_last = own.at + 1 == len(own.cowns)
        if own.stage == EXCHANGED:
            cown = own.cowns[own.at]
            place = state.queues[cown].index(name)
            if place and not state.is_flagged(state.queues[cown][place - 1], cown):
                return False
            state.set(name, stage=FLAGGING if is_last else ASKING, at=0 if is_last else own.at + 1)
            return True
        if own.stage == FLAGGING:
            state.set(name, stage=OWNING if is_last else FLAGGING, at=own.at + 1)
            return True
        return False

    def deciding_turn(self, state, name):
        """Swap, Own, Unhook or Pass, if one of them is due to the worker that serves this behaviour."""
        own = state.opened[name]
        if own.stage == LEAVING:
            return self.leave(state, name, own)
        child = own.child and state.opened[own.child]
        if child and child.stage == ASKING:
            state.queues[child.cowns[child.at]] += (own.child,)
            state.set(own.child, stage=EXCHANGED)
            return True
        if child and child.stage == OWNING:
            state.set(name, child=None)
            state.set(own.child, stage=WAITING)
            state.wake(own.child)
            return True
        return False

    def leave(self, state, name, own):
        cown = own.cowns[own.at]
        rest = state.queues[cown][1:]
        if rest and not state.is_settled(rest[0], cown):
            return False
        state.queues[cown] = rest
        state.set(name, at=own.at + 1)
        if own.at + 1 == len(own.cowns):
            del state.opened[name]
        if rest:
            state.wake(rest[0])
        return True


def cases(program):
    several = 0
    for number in range(PROGRAMS):
        text, workers, ends, plain_fault = walked(number)
        several += len(ends) > 1
        yield f"random program {number}, by {workers} workers", plain_fault or fault_of_found(program, text, workers, ends)
    yield "programs of several ends", None if several >= SEVERAL else f"there are {several}"
    for name, (text, workers, runs, depth, wanted) in FEW.items():
        yield f"{name}: all ends are found", fault_of_all(program, text or program.example(name), workers, runs, depth, wanted)
    for workers, wanted in OF_FIVE.items():
        ends = Walk(Program(FIVE), workers, 10 ** 6).ends()
        yield f"five by {workers} workers", None if len(ends) == wanted else f"there are {len(ends)} ends in place of {wanted}"
        yield f"five by {workers} workers, drawn", fault_of_found(program, FIVE, workers, ends, 2_000)


def walked(number):
    """A program by chance that isn't too large: its text, by how many workers it is run, its ends, and what the walk without haste finds other."""
    chance = random.Random(f"{SEED} {number}")
    workers = 1 + number % MOST_WORKERS
    while True:
        text = racing_program(chance) if number % 3 else random_program(chance)[1]
        try:
            ends = Walk(Program(text), workers, MOST_STATES).ends()
            break
        except TooLarge:
            pass
    try:
        other = Walk(Program(text), workers, MOST_PLAIN, False).ends() if number < PLAINLY else ends
    except TooLarge:
        other = ends
    return text, workers, ends, None if ends == other else f"without haste the walk finds {other}, and with it {ends}"


def racing_program(chance):
    """A program by chance in which behaviours, each over a cown of its own, spawn others side by side over the same two."""
    defs = [f"def one{number}(; x) {{ {chance.choice(ON_ONE)} }}" for number in range(2)]
    defs += [f"def two{number}(; x, y) {{ {chance.choice(ON_TWO)} }}" for number in range(2)]
    count = chance.choice([2, 2, 3])
    for number in range(count):
        spawns = [chance.choice(SPAWNS) for _ in range(chance.choice([1, 2]) if count == 2 else 1)]
        defs.append(f"def go{number}(; z) {{ {' '.join(spawns)} z = 1; }}")
    starts = " ".join(f"when go{number}(; own[{number}]);" for number in range(count))
    return "\n".join(["cown a = 1; cown b = 2; cown own[3] = 0;", *defs, f"main {{ {starts} }}"]).encode()


def fault_of_found(program, text, workers, ends, runs=RUNS):
    """Each end that is told of is one of these."""
    for way in WAYS:
        answer = program.run(["outcomes", "--runs", str(runs), "--workers", str(workers), *way], text)
        strange = found_ends(answer.output) - ends
        if answer.status or not found_ends(answer.output) or strange:
            return f"outcomes {way} tells of {strange}, which no interleaving comes to: {answer}"
    return None


def fault_of_all(program, text, workers, runs, depth, wanted):
    """There are as many ends as wanted, and so many runs find all of them."""
    ends = Walk(Program(text), workers, 10 ** 6).ends()
    if len(ends) != wanted:
        return f"there are {len(ends)} ends in place of {wanted}"
    found = found_ends(program.run(["outcomes", "--runs", str(runs), "--workers", str(workers), "--depth", depth], text).output)
    return None if found == ends else f"it finds {len(found & ends)} of {len(ends)} ends, and tells of {found - ends}"
