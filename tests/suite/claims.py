"""Small programs that would break a sentence of help or of a document, if it promised more than is so.

Each shows what the sentence has to leave open; what is expected is worked out by hand.
"""
import os
import re

TOP = os.path.dirname(os.path.dirname(os.path.dirname(os.path.abspath(__file__))))

# One order alone is possible: `g` comes behind `f`, and `h` behind `g`. The span is 25, and 17 without the cown.
ONE_ORDER = b"""cown a = 0;
def h(;) { work 7; }
def g(; x) { when h(;); }
def f(; x) { when g(; x); work 8; }
main { work 3; when f(; a); }
"""

# What `big` takes depends on who comes first: 12 ticks of 18, or 2 of 9. `a` is held for 12 and 2 ticks, from tick 4 on, at which `l` has spawned `big`.
TICKS_BY_ORDER = b"""cown a = 0;
def big(; x) { if x == 0 { work 10; } }
def mark(; x) { x = 1; }
def l(;) { when big(; a); }
def r(;) { when mark(; a); }
main { when l(;); when r(;); }
"""

# Two chains of 22 ticks, each over a cown of its own: to free one leaves the other.
TWO_CHAINS = b"""cown a = 0; cown b = 0;
def f(; x) { work 9; }
def g(; x) { work 8; }
main { when f(; a); when f(; a); when g(; b); when g(; b); }
"""

# The first `f` hands `a` and `b` on, and to free `a` alone brings 9 of 29 ticks.
TWO_COWNS_HANDED_ON = b"""cown a = 0; cown b = 0;
def f(; x, y) { work 8; }
def g(; x) { work 8; }
main { when f(; a, b); when f(; a, b); when g(; a); }
"""

# `g` is off the chain, which is that of `f`; more ticks of `g` move the end.
OFF_THE_CHAIN = b"def f(;) { work 9; } def g(;) { work 3; } main { when f(;); when g(;); }"

# `g` takes 10 ticks, and main spawns two of them over `a` at its ticks 3 and 4: from 3 on, `a` is held for 20. Spawned at 2 and 3, the same rows end at 22.
LATE_IN_ORDER = b"""cown a = 0;
def f(;) { work 1; }
def g(; x) { work 9; }
main { when f(;); when g(; a); when g(; a); }
"""
EARLY_IN_ORDER = LATE_IN_ORDER.replace(b"when f(;); when g(; a); when g(; a);", b"when g(; a); when g(; a); when f(;);")

# `f` starts at 2, and takes 7 ticks. It spawns `g`, of 6 ticks, at its last one, which is tick 9, or at its second one, which is tick 4.
LATE_IN_BODY = b"def f(;) { work 5; when g(;); } def g(;) { work 5; } main { when f(;); }"
EARLY_IN_BODY = LATE_IN_BODY.replace(b"work 5; when g(;);", b"when g(;); work 5;")

# Buys of 14, 104 and 14 ticks, each of which spawns a print of 52 at its end. All hold `l`, so the buys end at 16, 120 and 134, and the prints at 68, 172 and
# 224. Without `l` the third buy ends at 18, but its print is still the last one. Split in two, `l` lets it be spawned as the second: 68, 120 and 172.
ONE_LEDGER = b"""cown l = 0; cown x = 0; cown y = 0; cown pr = 0;
def buy(t; s, lg) { work t; s = s + 1; lg = lg + 1; when print(; pr); }
def print(; p) { work 50; p = p + 1; }
main { when buy(10; x, l); when buy(100; x, l); when buy(10; y, l); }
"""
TWO_LEDGERS = ONE_LEDGER.replace(b"cown l = 0;", b"cown l[2] = 0;").replace(b"x, l)", b"x, l[0])").replace(b"y, l)", b"y, l[1])")

# What docs/HANDBOOK.md says of the shop whose `buy` pays before it works.
PAYS_FIRST = b"""def buy(buyer, amount; stock, lines) {
    if stock >= amount {
        when pay(amount * 2; purse[buyer]);
        work 8;
        work 10;
        stock = stock - amount;
        work 10;
        lines = lines + 1;
    }
}

"""

# What docs/OUTCOMES.md says of its program of three behaviours: how many final states that many runs of two workers find.
THREE = b"""cown a = 1; cown b = 0; cown c = 0; cown d = 0;
def put(k; x) { x = x * 3 + k; }
def go(k; y) { when put(k; a); }
main { when go(0; b); when go(1; c); when go(2; d); }
"""
FOUND = {100: 2, 200: 3}


# What earlier spawns save for two workers is more than another plan of the same rows could.
LATE_SPAWN = b"""def first(;) { work 37; when second(;); }
def second(;) { work 33; }
def late(;) { work 60; }
main {
    when first(;);
    work 39;
    when late(;);
    work 14;
}
"""


def cases(program):
    yield "the verdict order blames no order where there is one alone", order_is_not_blamed(program)
    yield "the lower bound counts the ticks of the run at hand", bound_is_of_this_run(program)
    yield "a cown without which the span stays may order rows of a chain as long", twin_chains(program)
    yield "to free one of two cowns that are handed on may bring something", one_of_two(program)
    yield "more ticks of a row off the chain may move the end", moved_end(program)
    yield "the lower bound counts the order of the spawns of the run at hand", spawned_earlier(program, LATE_IN_ORDER, EARLY_IN_ORDER, b"23 (a is held", 22)
    yield "the lower bound counts the ticks of the spawns of the run at hand", spawned_earlier(program, LATE_IN_BODY, EARLY_IN_BODY, b"15 (their spawns", 10)
    yield "a split may gain more than leaving a cown out", split(program)
    yield "a plan of another run may end before the least of a curve", least_is_of_this_run(program)
    yield "earlier spawns may save more than another plan of the same rows", spawns_save_more(program)
    yield "without a cown a greedy plan may end later", later_without(program)
    yield "HANDBOOK tells how a shop ends whose buys pay first", pays_first(program)
    yield "OUTCOMES tells how many ends so many runs find", found_ends(program)


def spawns_save_more(program):
    output = program.run(["why", "-p", "2"], LATE_SPAWN).output.decode()
    end, least = map(int, re.search(r"^2 workers   end (\d+)   least (\d+) ", output, re.M).groups())
    saved = int(re.search(r"^  early spawns by main +\d+ +(\d+) ", output, re.M)[1])
    return None if output.splitlines()[-1].startswith("plan: ") and saved > end - least else f"it says {output!r}"


def later_without(program):
    output = program.run(["cowns", "-p", "2"], program.example("pipeline.boc")).output.decode()
    end = int(re.search(r"^2 workers   end (\d+) ", output, re.M)[1])
    left = int(re.search(r"^parser .* (\d+)$", output, re.M)[1])
    return None if left > end else f"it says {output!r}"


def span_of(report):
    """The span in a report."""
    return int(re.search(rb"^span (\d+)$", report, re.M)[1])


def line_that_begins(text, word):
    return next((line for line in text.splitlines() if line.startswith(word)), None)


def order_is_not_blamed(program):
    said = line_that_begins(program.run(["cowns"], ONE_ORDER).output, b"order: ")
    wanted = b"order: no cown is held for more than 12 of 25 ticks; another order of the behaviours may end sooner"
    return None if said == wanted else f"it says {said!r}"


def bound_is_of_this_run(program):
    said = line_that_begins(program.run(["why"], TICKS_BY_ORDER).output, b"lower bound for any order: ")
    if said != b"lower bound for any order: 18 (a is held for 14 ticks, from tick 4 on)":
        return f"it says {said!r}"
    spans = {span_of(program.run(["time", "--workers", "2", "--seed", str(seed)], TICKS_BY_ORDER).output) for seed in range(20)}
    return None if spans == {9, 18} else f"the runs have the spans {sorted(spans)}"


def ticks_in(record):
    """The ticks of the rows of a record, in rising order."""
    return sorted(int(line.split()[2]) for line in record.splitlines() if line.startswith(b"< "))


def spawned_earlier(program, late, early, bound, span):
    """The bound of a run is no bound of one whose rows take the same ticks, and are spawned in another order or at other ticks."""
    said = line_that_begins(program.run(["why"], late).output, b"lower bound for any order: ")
    if said is None or not said.startswith(b"lower bound for any order: " + bound):
        return f"it says {said!r}"
    records = [program.run(["run"], text).output for text in (late, early)]
    if ticks_in(records[0]) != ticks_in(records[1]):
        return f"the ticks are {[ticks_in(record) for record in records]}"
    found = span_of(program.run(["profile"], records[1]).output)
    return None if found == span else f"the other run has the span {found}"


def split(program):
    record = program.run(["run"], ONE_LEDGER).output
    spans = [span_of(program.run(["whatif", *words], record).output) for words in ([], ["--without", "0"])]
    spans.append(span_of(program.run(["time"], TWO_LEDGERS).output))
    return None if spans == [224, 224, 172] else f"the spans are {spans}"


def least_is_of_this_run(program):
    """The least for two workers, of a run in which the second buy ends before the third starts, is the span, 224. Else two end at 174: the second buy at 120,
    and the prints, all on the other worker but the last, at 70, 122 and 174."""
    lines = [program.run(["curve", "--p", "2"], program.run(["run", *words], TWO_LEDGERS).output).output.splitlines()[-1].split()
             for words in (["--workers", "4", "--seed", "0"], [])]
    found = int(lines[0][2]), int(lines[1][1])
    return None if found == (224, 174) else f"the least of one is {found[0]}, and the end of the other {found[1]}"


def pays_first(program):
    with open(os.path.join(TOP, "docs", "HANDBOOK.md"), encoding="utf-8") as file:
        text = " ".join(file.read().split())
    if "If each `buy` spawned its `pay` before it works, all rows would take the same ticks, and the span would be 172." not in text:
        return "HANDBOOK says otherwise"
    with open(os.path.join(TOP, "examples", "handbook", "shop_3.boc"), "rb") as file:
        shop = file.read()
    changed = shop[: shop.index(b"def buy(")] + PAYS_FIRST + shop[shop.index(b"def pay(") :]
    return spawned_earlier(program, shop, changed, b"191 (purse[3] is held", 172)


def twin_chains(program):
    lines = program.run(["cowns"], TWO_CHAINS).output.splitlines()
    without = [int(line.split()[-1]) for line in lines if re.match(rb"[ab] ", line)]
    return None if without == [22, 22] else f"without each cown the span is {without}"


def one_of_two(program):
    said = program.run(["why"], TWO_COWNS_HANDED_ON).output
    if b"hands a and b to row 2" not in said:
        return "it doesn't hand both on"
    record = program.run(["run"], TWO_COWNS_HANDED_ON).output
    spans = [span_of(program.run(["whatif", *words], record).output) for words in ([], ["--without", "0"], ["--without", "1"])]
    return None if spans == [29, 20, 29] else f"the spans are {spans}"


def moved_end(program):
    record = program.run(["run"], OFF_THE_CHAIN).output
    spans = [span_of(program.run(["whatif", *words], record).output) for words in ([], ["2=20"])]
    return None if spans == [12, 23] else f"the spans are {spans}"


def found_ends(program):
    with open(os.path.join(TOP, "docs", "OUTCOMES.md"), encoding="utf-8") as file:
        text = " ".join(file.read().split())
    if "With two workers, 100 random runs find 2 of the 4 final states, and 200 find 3" not in text:
        return "OUTCOMES says otherwise"
    for runs, wanted in FOUND.items():
        output = program.run(["outcomes", "--workers", "2", "--runs", str(runs)], THREE).output
        found = sum(line.startswith(b"outcome ") for line in output.splitlines())
        if found != wanted:
            return f"{runs} runs find {found}"
    return None
