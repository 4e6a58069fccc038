"""What `why` tells, computed plainly from the rows of a record and their names, and worked examples of it."""
import random

from . import advice, model
from .plans import random_rows, record_of
from .records import fan, fan_text, tower, tower_text
from .running import done, fault_of, refused

MOST_LISTED = 20
LEAST_FOLDED = 4


def table(sides, lines):
    """Texts in columns, each on its side, two blanks between them, and none at the end of a line."""
    widths = [max(len(line[column]) for line in lines) for column in range(len(sides))]
    texts = []
    for line in lines:
        cells = [text.ljust(width) if side == "l" else text.rjust(width) for side, width, text in zip(sides, widths, line)]
        texts.append("  ".join(cells).rstrip(" "))
    return texts


class Names:
    """What rows and cowns are called where there is no program: by their numbers, each a def or a family for itself."""

    def __init__(self, rows, cowns):
        self.defs = list(range(rows))
        self.def_names = self.rows = [f"row {number}" for number in range(rows)]
        self.cowns = self.family_names = [f"cown {number}" for number in range(cowns)]
        self.families = list(range(cowns))


def steps_of(rows, starts):
    """The steps of the chain: the row, how it leads on, and what it weighs."""
    return [(int(row), via, int(weight)) for row, via, weight in (line.split() for line in model.chain(rows, starts))]


def links_of(rows, names, steps):
    """What leads on from each step: the def that spawns, the cowns that are handed on, or the end."""
    links = []
    for place, (row, via, _) in enumerate(steps):
        if via == "spawn":
            links.append(("spawn", names.defs[row]))
        elif via == "order":
            after = steps[place + 1][0]
            links.append(("cowns", tuple(sorted(set(rows[row].cowns) & set(rows[after].cowns)))))
        else:
            links.append(("end",))
    return links


def link_name(names, link):
    if link[0] == "spawn":
        return "spawn by " + names.def_names[link[1]]
    return " and ".join(names.cowns[cown] for cown in link[1]) if link[0] == "cowns" else link[0]


def then_text(names, link, after):
    if link[0] == "spawn":
        return f"spawns row {after}"
    return f"hands {link_name(names, link)} to row {after}" if link[0] == "cowns" else "ends"


def inner_text(names, links):
    """What several rows do, each before the next one of them goes on."""
    handed = [set(link[1]) for link in links if link[0] == "cowns"]
    spawns = len(links) - len(handed)
    parts = []
    if handed:
        common = sorted(set.intersection(*handed))
        parts.append(f"{len(handed)} hand on " + link_name(names, ("cowns", common)) if common else f"{len(handed)} hand on")
    if spawns:
        parts.append(f"{spawns} spawn the next")
    return ", ".join(parts)


def chain_lines(rows, starts, names, steps, links, every):
    lines = [["", "tick", "ticks", "row", "behaviour", "then"]]
    after = [step[0] for step in steps[1:]] + [None]
    place = 0
    while place < len(steps):
        def_of = names.defs[steps[place][0]]
        end = place + 1
        while end < len(steps) and names.defs[steps[end][0]] == def_of:
            end += 1
        if every or end - place < LEAST_FOLDED:
            end = place + 1
            row, _, weight = steps[place]
            lines.append(["", str(starts[row]), str(weight), str(row), names.rows[row], then_text(names, links[place], after[place])])
        else:
            run = steps[place:end]
            then = inner_text(names, links[place:end - 1]) + "; the last " + then_text(names, links[end - 1], after[end - 1])
            lines.append(["", str(starts[run[0][0]]), str(sum(step[2] for step in run)), f"{run[0][0]}..{run[-1][0]}",
                          f"{len(run)} {names.def_names[def_of]}", then])
        place = end
    return lines + [["", str(max(model.ends_of(rows, starts))), "", "", "", ""]]


def shares(keys, steps):
    """For each key how much its steps weigh, and how many they are; those that weigh most first."""
    totals = {}
    for key, step in zip(keys, steps):
        ticks, count = totals.get(key, (0, 0))
        totals[key] = (ticks + step[2], count + 1)
    return sorted(((key, *total) for key, total in totals.items()), key=lambda share: (-share[1], share[0]))


def listed(entries):
    lines = [["  " + name, str(first), str(second)] for name, first, second in entries[:MOST_LISTED]]
    return lines + ([[f"  {len(entries) - MOST_LISTED} more", "", ""]] if len(entries) > MOST_LISTED else [])


def bound_line(spawns, held, names, shared=False):
    """The tick before which no order of the cowns ends: of each cown the ticks of the rows that write it, and the least start of one by the spawns alone."""
    untils = [ticks + first for ticks, first in held]
    if not untils or max(untils) < spawns:
        return f"lower bound for any order: {spawns} (their spawns take that long)"
    cown = untils.index(max(untils))
    ticks, first = held[cown]
    behind = f", from tick {first} on" if first else ""
    return f"lower bound for any order: {untils[cown]} ({names[cown]} is {'written' if shared else 'held'} for {ticks} ticks{behind})"


def least_line(rows, names):
    alone = [row._replace(cowns=()) for row in rows]
    starts = model.earliest_starts(alone)
    held = []
    for cown in range(len(names.cowns)):
        own = [number for number, row in enumerate(rows) if cown in row.cowns]
        held.append((sum(rows[number].ticks for number in own), min((starts[number] for number in own), default=0)))
    return bound_line(model.span(alone), held, names.cowns)


def share_lines(names, by_def, by_link, heads):
    """The shares of a chain by def, and beside them those by link, under these heads."""
    left = listed([(names.def_names[key], ticks, count) for key, ticks, count in by_def])
    right = listed([(link_name(names, link), ticks, count) for link, ticks, count in by_link])
    most = max(len(left), len(right))
    pairs = zip(left + [["", "", ""]] * (most - len(left)), right + [["", "", ""]] * (most - len(right)))
    return table("lrrllrr", [[heads[0], "ticks", "rows", "    ", heads[1], "ticks", "links"]] + [one + [""] + other for one, other in pairs])


def why(rows, names, every=False, workers=None):
    """The text that `why` writes for these rows, with exclusive cowns."""
    starts = model.earliest_starts(rows)
    steps = steps_of(rows, starts)
    links = links_of(rows, names, steps)
    by_def = shares([names.defs[step[0]] for step in steps], steps)
    by_link = [(links[place], ticks, count) for place, ticks, count in shares([links.index(link) for link in links], steps)]
    lines = [f"rows {len(rows)}   work {sum(row.ticks for row in rows)}   span {max(model.ends_of(rows, starts))}"]
    seen = advice.seen(rows)
    chains = [advice.earliest_chain(seen, names)]
    if workers:
        chains.append(advice.greedy_chain(seen, names, workers))
        lines.append(advice.head_line(seen, workers, chains[1].end))
    lines += ["", "chain"] + table("lrrrll", chain_lines(rows, starts, names, steps, links, every)) + [""]
    lines += share_lines(names, by_def, by_link, ("chain by def", "chain by link"))
    if workers:
        if chains[1].steps != chains[0].steps:
            lines += [""] + share_lines(names, chains[1].by_def, chains[1].by_link, (f"{advice.count_text(workers)} by def", "by link"))
        lines.append("")
    lines += advice.advice_lines(seen, names, chains, workers) + [least_line(rows, names)] + advice.order_lines(seen, names)
    return model.text(lines + ([advice.verdict_line(seen, workers, chains[1].end)] if workers else []))


def steps(rows, names, most, workers=None):
    """The text that `why --then` writes."""
    return steps_of_seen(advice.seen(rows), names, most, workers)


def steps_of_seen(rows, names, most, workers=None):
    """The same of rows as plans see them."""
    return model.text(advice.steps_text(rows, names, most, workers))


def fault_of_advice(answer, rows, names, workers):
    """What is wrong with what follows the chain and its shares for a number of workers, of rows as plans see them."""
    end = advice.greedy_end(rows, workers)
    chains = [advice.earliest_chain(rows, names), advice.greedy_chain(rows, names, workers)]
    parts = [[advice.head_line(rows, workers, end)], advice.advice_lines(rows, names, chains, workers),
             advice.order_lines(rows, names) + [advice.verdict_line(rows, workers, end)]]
    lines = answer.output.decode().splitlines()
    if lines[1:2] != parts[0] or lines[-len(parts[2]):] != parts[2]:
        return f"it says {lines[1:2]} and {lines[-2:]} in place of {parts[0]} and {parts[2]}"
    begun = lines.index(parts[1][0]) if parts[1][0] in lines else 0
    told = lines[begun:begun + len(parts[1])]
    return None if told == parts[1] else f"{told} in place of {parts[1]}"


# What is told of runs by one thread, in the names of their programs.
TRANSFER = """\
rows 4   work 11   span 9

chain
  tick  ticks  row  behaviour      then
     0      2    0  main           spawns row 1
     2      2    1  add(5; a)      hands a to row 2
     4      3    2  move(3; a, b)  hands b to row 3
     7      2    3  add(1; b)      ends
     9

chain by def  ticks  rows        chain by link    ticks  links
  add             4     2          b                  3      1
  move            3     1          spawn by main      2      1
  main            2     1          a                  2      1
                                   end                2      1
candidates              span  less
  add at 1/2               7     2
  without b                7     2
  move at 1/2              8     1
  main at 1/2              8     1
  without a                8     1
  early spawns by main     8     1
several cowns at once  without
  a and b                    6
  every cown                 6
lower bound for any order: 8 (b is held for 5 ticks, from tick 3 on)
"""

PIPELINE = """\
rows 37   work 609   span 279

chain
  tick  ticks     row  behaviour          then
     0      5       0  main               spawns row 1
     5     13       1  parse(1; parser)   hands parser to row 2
    18     13       2  parse(2; parser)   spawns row 14
    31     12      14  check(6; checker)  spawns row 15
    43    228  15..35  6 price            5 hand on pricer; the last spawns row 36
   271      8      36  keep(126; store)   ends
   279

chain by def  ticks  rows        chain by link     ticks  links
  price         228     6          pricer            190      5
  parse          26     2          spawn by price     38      1
  check          12     1          parser             13      1
  keep            8     1          spawn by parse     13      1
  main            5     1          spawn by check     12      1
                                   end                 8      1
                                   spawn by main       5      1
candidates               span  less
  price at 1/2            200    79
  without pricer          219    60
  early spawns by parse   267    12
  early spawns by check   268    11
  parse at 1/2            271     8
  early spawns by price   271     8
  check at 1/2            273     6
  keep at 1/2             275     4
  early spawns by main    275     4
  main at 1/2             277     2
  without parser          277     2
several cowns at once            without
  parser and pricer                  202
  parser and checker and pricer      119
  every cown                         109
lower bound for any order: 261 (pricer is held for 228 ticks, from tick 33 on)
"""

BANK = """\
rows 29   work 1001   span 827

chain
  tick  ticks     row  behaviour                    then
     0     11       0  main                         spawns row 1
    11    360   1..12  12 transfer                  11 hand on log; the last hands acct[3] to row 13
   371     32      13  audit(; acct[0..5], total)   hands total to row 14
   403     32      14  audit(; acct[6..11], total)  hands acct[6] and acct[10] to row 15
   435    328  15..25  11 transfer                  10 hand on log; the last hands acct[2] to row 27
   763     32      27  audit(; acct[0..5], total)   hands total to row 28
   795     32      28  audit(; acct[6..11], total)  ends
   827

chain by def  ticks  rows        chain by link           ticks  links
  transfer      688    23          log                     538     18
  audit         128     4          total                    64      2
  main           11     1          acct[6] and acct[10]     32      1
                                   end                      32      1
                                   acct[3] and log          30      1
                                   acct[5] and log          30      1
                                   acct[3]                  30      1
                                   acct[7] and log          30      1
                                   acct[2]                  30      1
                                   spawn by main            11      1
candidates                 span  less
  without acct[*] and log   220   607
  without log               437   390
  transfer at 1/2           483   344
  without acct[*]           727   100
  audit at 1/2              775    52
  without total             791    36
  early spawns by main      817    10
  main at 1/2               822     5
several cowns at once        without
  acct[*] and log and total      189
  every cown                     189
lower bound for any order: 727 (log is held for 716 ticks, from tick 11 on)
a better order ends at 727: start whatever can start; it differs first at acct[2], where row 13, audit(; acct[0..5], total), comes before row 4, transfer(31; acct[7], acct[2], log)
"""

# The meals hand on the count of all meals, each with another fork.
PHILOSOPHERS = """\
rows 31   work 1108   span 717

chain
  tick  ticks    row  behaviour     then
     0      5      0  main          spawns row 1
     5     27      1  think(0, 2;)  spawns row 6
    32    685  6..30  15 eat        14 hand on meals; the last ends
   717

chain by def  ticks  rows        chain by link        ticks  links
  eat           685    15          fork[1] and meals    137      3
  think          27     1          fork[2] and meals    137      3
  main            5     1          fork[3] and meals    137      3
                                   fork[4] and meals    137      3
                                   fork[0] and meals     92      2
                                   end                   45      1
                                   spawn by think        27      1
                                   spawn by main          5      1
candidates                   span  less
  without fork[*] and meals   235   482
  eat at 1/2                  377   340
  early spawns by think       691    26
  think at 1/2                704    13
  early spawns by main        713     4
  main at 1/2                 715     2
  without fork[*]             717     0
  without meals               717     0
several cowns at once  without
  every cown               235
lower bound for any order: 717 (meals is held for 685 ticks, from tick 32 on)
"""

# The chain of the tree: some of the joins hand on, each something else, and some spawn the next one.
TRANSFER_FOR_FOUR = """\
rows 4   work 11   span 9
4 workers   end 9   least 9   work/4 3   busy 30%

chain
  tick  ticks  row  behaviour      then
     0      2    0  main           spawns row 1
     2      2    1  add(5; a)      hands a to row 2
     4      3    2  move(3; a, b)  hands b to row 3
     7      2    3  add(1; b)      ends
     9

chain by def  ticks  rows        chain by link    ticks  links
  add             4     2          b                  3      1
  move            3     1          spawn by main      2      1
  main            2     1          a                  2      1
                                   end                2      1

candidates for 4 workers  end  less  span  less
  add at 1/2                7     2     7     2
  without b                 7     2     7     2
  move at 1/2               8     1     8     1
  main at 1/2               8     1     8     1
  without a                 8     1     8     1
  early spawns by main      8     1     8     1
several cowns at once  end without  without
  a and b                        6        6
  every cown                     6        6
lower bound for any order: 8 (b is held for 5 ticks, from tick 3 on)
chain: the critical path takes 9 of 9 ticks; more workers save nothing
"""

PIPELINE_STEPS = """\
rows 37   work 609   span 279
2 workers   end 352   least 305   work/2 305   busy 86%

steps for 2 workers  end  less  span  less
  1  price at 1/2    262    90   200    79
  2  parse at 1/2    231    31   177    23
  3  check at 1/2    200    31   147    30
"""

TREE_CHAIN = """\
chain
  tick  ticks     row  behaviour  then
     0      2       0  main       spawns row 1
     2    109   1..20  5 fork     4 spawn the next; the last spawns row 36
   111     63  36..61  7 up       3 hand on, 3 spawn the next; the last ends
   174

"""

# The chain of the pipeline, each row on a line of its own.
PIPELINE_CHAIN = """\
chain
  tick  ticks  row  behaviour          then
     0      5    0  main               spawns row 1
     5     13    1  parse(1; parser)   hands parser to row 2
    18     13    2  parse(2; parser)   spawns row 14
    31     12   14  check(6; checker)  spawns row 15
    43     38   15  price(6; pricer)   hands pricer to row 19
    81     38   19  price(12; pricer)  hands pricer to row 23
   119     38   23  price(18; pricer)  hands pricer to row 27
   157     38   27  price(24; pricer)  hands pricer to row 31
   195     38   31  price(30; pricer)  hands pricer to row 35
   233     38   35  price(36; pricer)  spawns row 36
   271      8   36  keep(126; store)   ends
   279
"""

# Behaviours that only read, and with shared reads do so at once; then the reader that the writer waits for is the chain's.
PEEKS_SHARED = """\
rows 4   work 20   span 12

chain
  tick  ticks  row  behaviour  then
     0      3    0  main       spawns row 2
     3      7    2  peek(; a)  hands a to row 3
    10      2    3  set(; a)   ends
    12

chain by def  ticks  rows        chain by link    ticks  links
  peek            7     1          a                  7      1
  main            3     1          spawn by main      3      1
  set             2     1          end                2      1
candidates              span  less
  peek at 1/2              9     3
  without a               10     2
  main at 1/2             11     1
  set at 1/2              11     1
  early spawns by main    11     1
several cowns at once  without
  every cown                10
lower bound for any order: 10 (their spawns take that long)
"""


def rows_of(record):
    """The rows of a record's text, and how many cowns it has."""
    lines = record.decode().splitlines()
    rows = []
    for line in lines[1:]:
        sign, *numbers = line.split(" ")
        numbers = [int(number) for number in numbers]
        if sign == "+":
            rows.append(model.Row(numbers[1], numbers[2], tuple(numbers[3:]), 0))
        elif sign == "<":
            rows[numbers[0]] = rows[numbers[0]]._replace(ticks=numbers[1])
    return rows, int(lines[0].split(" ")[2])


def cases(program):
    for name, expected in [("transfer.boc", TRANSFER), ("pipeline.boc", PIPELINE), ("bank.boc", BANK), ("philosophers.boc", PHILOSOPHERS)]:
        yield f"{name}: why", fault_of(done(expected.encode()), program.run(["why"], program.example(name)))
    whole = PIPELINE[:PIPELINE.index("chain\n")] + PIPELINE_CHAIN + PIPELINE[PIPELINE.index("\nchain by def"):]
    yield "pipeline.boc: why --all", fault_of(done(whole.encode()), program.run(["why", "--all"], program.example("pipeline.boc")))
    tree = program.run(["why"], program.example("tree.boc"))
    yield "tree.boc: why", None if TREE_CHAIN.encode() in tree.output else str(tree)
    shared = program.run(["why", "--shared-reads"], program.example("peeks.boc"))
    yield "peeks.boc: why --shared-reads", fault_of(done(PEEKS_SHARED.encode()), shared)
    for name in ["transfer.boc", "pipeline.boc", "bank.boc", "scaling.boc", "accounts.boc", "four_squares.boc", "two_orders.boc", "overflow.boc",
                 "same_cown_twice.boc", "anomaly_cown.boc", "anomaly_two_workers.boc", "philosophers.boc", "scoreboard.boc", "tree.boc",
                  "division.boc", "race.boc", "commute.boc"]:
        yield from of_record(program, f"the record of {name}", program.run(["run"], program.example(name)).output)
    yield from of_record(program, "a fan", fan_text(3, fan(60, lambda number: (number % 3,), lambda number: 1 + number % 5)))
    yield from of_record(program, "a tower", tower_text(tower(40)))
    yield from random_cases(program)
    yield from refusals(program)


def of_record(program, name, record):
    """The record of a run, whose rows and cowns have numbers alone."""
    rows, cowns = rows_of(record)
    for every in (False, True):
        answer = program.run(["why"] + (["--all"] if every else []), record)
        yield f"{name}: why, {'every row' if every else 'folded'}", fault_of(done(why(rows, Names(len(rows), cowns), every)), answer)
    for workers in (1, 3):
        answer = program.run(["why", "--p", str(workers)], record)
        yield f"{name}: why for {workers}", fault_of(done(why(rows, Names(len(rows), cowns), workers=workers)), answer)
    for words, most, workers in [(["--then", "5"], 5, None), (["--then", "2", "--p", "2"], 2, 2)]:
        told = steps(rows, Names(len(rows), cowns), most, workers)
        yield f"{name}: why {' '.join(words)}", fault_of(done(told), program.run(["why", *words], record))


def random_cases(program):
    chance = random.Random(20261126)
    for number in range(150):
        record = None
        while record is None:
            record = record_of(random_rows(chance))
        yield from of_record(program, f"random rows {number}", record)


def refusals(program):
    yield "why: no input", fault_of(refused(3, "boc: line 1: 3 Unexpected"), program.run(["why"]))
    yield "why: a wrong name", fault_of(refused(3, "boc: line 2: 5 UnknownName"), program.run(["why"], b"cown a = 0;\nmain { x = 1; }"))
    yield "why: a text that is too long", fault_of(refused(3, "boc: line 1: 9 TooLong"), program.run(["why"], b" " * 70000))
    yield "why: too many behaviours", fault_of(refused(4, "boc: run: 2 Behaviours"), program.run(["why"], b"def f(;) { when f(;); } main { when f(;); }"))
    yield "why: a header of another version", fault_of(refused(3, "boc: line 1: 1 Header"), program.run(["why"], b"boc 3 0\n.\n"))
    yield "why: a record that is cut", fault_of(refused(3, "boc: line 2: 11 Truncated"), program.run(["why"], b"boc 2 0\n+ 0 0"))
    yield "why: a byte behind a record", fault_of(refused(3, "boc: line 6: 12 After"), program.run(["why"], b"boc 2 0\n+ 0 0 0\n> 0\n< 0 1 0\n.\nx"))
