#!/usr/bin/env python3
"""The workloads: sheets that are timed. The same sheets each time; nothing here is drawn by lot.

    bench/workloads.py                 prints the table: name, bytes, what it is
    bench/workloads.py --out DIR       writes DIR/NAME.sheet of each

Each is a model, a detector and mostly one dear order. Those marked `whole` repeat the dear order as often
as fits in a sheet.
"""

import argparse
import collections
import os

from generate import SHEET_BYTES, Model, command, detector, entries, listed, truck

Workload = collections.namedtuple("Workload", "name sheet note whole")

BARE, RELAXED = detector(0), detector(1)
DETECTORS = {"bare": BARE, "relaxed": RELAXED}


def probe(state):
    """The commands that probe a state."""
    return entries(state) + [command("Q")]


def judge(row):
    """The commands that judge a row."""
    return entries(row) + [command("J")]


def opened(model, chosen):
    """The commands of a model and its detector."""
    return model.commands() + [chosen]


def repeated(head, order):
    """A sheet that repeats an order as often as fits."""
    start, block = b"".join(head), b"".join(order)
    return start + block * ((SHEET_BYTES - len(start)) // len(block))


# The small models of the documentation

def lane(free=False):
    """Two variables of size 3; the last step of each sets the other back, or, in the free line, one does."""
    back = {} if free else {1: 0}
    moves = [({0: 0}, {0: 1}), ({0: 1}, {0: 2, **back}), ({1: 0}, {1: 1}), ({1: 1}, {1: 2, 0: 0})]
    return Model([3, 3], moves, {0: 2, 1: 2})


def small_models():
    """The sheets of the examples."""
    singles = [{v: x} for v in range(2) for x in range(3)]
    yield "lane", opened(lane(), BARE) + listed(singles) + [command("T")] + judge({0: 2, 1: 1}) + [command("W")]
    yield "lane-probe", opened(lane(), BARE) + probe({0: 0, 1: 0}) + judge({1: 0}) + [command("W")]
    yield "free", opened(lane(free=True), RELAXED) + probe({0: 0, 1: 0}) + listed(singles) + [command("T")]
    split = Model([2, 2, 2], [({0: 0}, {0: 1})], {2: 1})
    rows = [{0: 0, 2: 0}, {0: 1, 1: 0, 2: 0}, {0: 1, 1: 1, 2: 0}]
    yield "split", opened(split, BARE) + listed(rows) + [command("T"), command("W")]
    key = Model([2, 2], [({1: 1}, {0: 1})], {0: 1})
    yield "key", opened(key, BARE) + listed([{0: 0, 1: 0}]) + [command("O")] + judge({0: 0, 1: 0}) + [command("W")]
    late = [command("V", 2, b"LANE    "), command("A", b"lane-up1"), command("V", 2, b"DOCK    ")]
    yield "late-variable", late


# A truck with fuel that runs out

def shuttle(fuel, asked):
    """A truck on a line of three places fetches loads at the first and counts them at the last; each
    drive takes fuel. Variables: place, fuel, what is carried, how many came."""
    moves = []
    for here, there in ((0, 1), (1, 2), (2, 1), (1, 0)):
        for left in range(1, fuel + 1):
            moves.append(({0: here, 1: left}, {0: there, 1: left - 1}))
    moves.append(({0: 0, 2: 0}, {2: 1}))
    for came in range(asked):
        moves.append(({0: 2, 2: 1, 3: came}, {2: 0, 3: came + 1}))
    return Model([3, fuel + 1, 2, asked + 1], moves, {3: asked}, {0: 0, 1: fuel, 2: 0, 3: 0})


def fuel_lines():
    """Fuel for just so many loads, and one load more than it is for."""
    for fuel in (3, 7, 11, 15):
        enough = (fuel + 2) // 4
        for asked, what in ((enough, "reach"), (enough + 1, "short")):
            model = shuttle(fuel, asked)
            for kind, chosen in (*DETECTORS.items(), ("pattern", detector(2, 0, 1, 3))):
                yield f"truck-{fuel}-{what}-{kind}", opened(model, chosen) + probe(model.start)


def loaded_trucks():
    """A truck that carries a load from the first of three places to the last and may go to and fro."""
    for fuel in (3, 7, 11, 15):
        model = truck(3, fuel, 1, [(0, 1), (1, 2), (2, 1), (1, 0)], [2])
        model.goal[0] = 0
        for kind, chosen in (*DETECTORS.items(), ("pattern", detector(2, 0, 1, 2) if fuel < 15 else detector(2, 0, 1))):
            yield f"load-{fuel}-{kind}", opened(model, chosen) + probe(model.start)


# Walks

LAST = 15


def field(extra_moves, first=30, variables=32, more=0, count=128):
    """Two variables of size 16, the numbers `first` and `first` + 1, that any move may set to any value:
    256 states, of which each has all moves. All other variables stay at 0 but for what `extra_moves` do,
    which stand last; `more` is the number of values of variable 0 beside 0."""
    sizes = [2] * variables
    sizes[0] = more + 1
    sizes[first] = sizes[first + 1] = 16
    sets = [({}, {v: x}) for v in (first, first + 1) for x in range(16)]
    moves = [sets[n % 32] for n in range(count - len(extra_moves))] + extra_moves
    return Model(sizes, moves, {0: more})


def at_the_last_state(first, effects):
    """A move that may be done in the state alone that is listed last."""
    return ({first: LAST, first + 1: LAST}, effects)


def walks():
    """Walks of 256 states of 128 moves each."""
    ends_in_plan = field([at_the_last_state(30, {0: 1})], more=1)
    yield "walk-256-plan", opened(ends_in_plan, BARE) + probe(ends_in_plan.start)
    wants_place = field([at_the_last_state(30, {0: 1})], more=2)
    yield "walk-256-wants-place", opened(wants_place, BARE) + probe(wants_place.start)


def three_variables(extra):
    """The field with three variables alone, so that a probe takes few bytes."""
    return field(extra, first=1, variables=3, more=2)


def whole_walks():
    """Whole sheets of probes."""
    model = three_variables([at_the_last_state(1, {0: 1})])
    yield "whole-probes-16", repeated(opened(model, BARE), probe(model.start))
    model = field([at_the_last_state(1, {0: 1})], first=1, variables=3, more=1)
    yield "whole-probes-plan", repeated(opened(model, BARE), probe(model.start))


# Settles

def candidates(first):
    """256 states of a field, by two entries each."""
    return [{first: a, first + 1: b} for a in range(16) for b in range(16)]


def wide_candidates(first):
    """The same with an entry of every variable before them."""
    return [{**{v: 0 for v in range(first)}, **row} for row in candidates(first)]


def all_stay(first, variables):
    """All moves lead to the last candidate, so that each search for what covers passes over all others."""
    sizes = [2] * variables
    sizes[first] = sizes[first + 1] = 16
    moves = [({}, {first: LAST, first + 1: LAST})] * 128
    return Model(sizes, moves, {0: 1})


def chain(first, variables, staying):
    """Each candidate leads to the one before it, the first leads out; beside that there are moves that
    lead from every candidate to the last. So each round marks one."""
    sizes = [2] * variables
    sizes[first] = sizes[first + 1] = 16
    moves = [({}, {first: LAST, first + 1: LAST})] * staying
    moves += [({first + 1: x}, {first + 1: x - 1}) for x in range(1, 16)]
    moves += [({first: x, first + 1: 0}, {first: x - 1, first + 1: LAST}) for x in range(1, 16)]
    moves.append(({first: 0, first + 1: 0}, {0: 1}))
    return Model(sizes, moves, {0: 1})


def disagreeing(rows):
    """The same rows with an entry that disagrees with the goal."""
    return [{**row, 0: 0} for row in rows]


def settles():
    """256 candidates, 128 moves."""
    wide = wide_candidates(30)
    yield "settle-256-all-stay", opened(all_stay(30, 32), BARE) + listed(wide) + [command("T")]
    yield "settle-256-chain", opened(chain(30, 32, 0), BARE) + listed(wide) + [command("T")]
    yield "settle-256-chain-128-moves", opened(chain(30, 32, 97), BARE) + listed(wide) + [command("T")]
    narrow = disagreeing(candidates(1))
    yield "settle-256-chain-narrow", opened(chain(1, 3, 97), BARE) + listed(narrow) + [command("T")]
    yield "offer-256-all-stay", opened(all_stay(30, 32), BARE) + listed(wide) + [command("O")]


def whole_settles():
    """Whole sheets of settles and of offers."""
    narrow = listed(disagreeing(candidates(1)))
    yield "whole-settles-chain", repeated(opened(chain(1, 3, 97), BARE), narrow + [command("T")])
    yield "whole-settles-all-stay", repeated(opened(all_stay(1, 3), BARE), narrow + [command("T")])
    yield "whole-offers-all-stay", repeated(opened(all_stay(1, 3), BARE), narrow + [command("O")])


# The relaxed detector at its limits

def chain_facts(count, variables):
    """Facts in the last variables, one for each step of a chain, the last variable's first."""
    facts = [(v, x) for v in range(variables - 1, -1, -1) for x in range(1, 16)]
    return facts[:count]


def relaxed_chain(steps, variables=32, all_given=True):
    """Moves of which each round of reaching can do one more, the last first."""
    facts = chain_facts(steps, variables)
    others = {v: 0 for v in range(variables)} if all_given else {}
    moves = []
    for step, (v, x) in enumerate(facts):
        before = dict([facts[step - 1]] if step else [(variables - 1, 0)])
        moves.append(({**others, **before}, {**others, v: x}))
    moves.reverse()
    return moves, dict([facts[-1]])


def relaxed_judge():
    """A verdict of 129 rounds."""
    moves, goal = relaxed_chain(128)
    model = Model([16] * 32, moves, goal)
    return model, judge({v: 0 for v in range(22, 32)})


def doors_and_chain(variables, all_given):
    """What the two workloads below share: forty doors that set variable 1 to 1, and a chain of 54 moves
    that can be done behind a door alone. Nothing sets variable 1 back, and the goal's variable 0 is set
    where it is 0, so that the relaxed detector calls dead what is behind a door, after 55 rounds."""
    facts = chain_facts(54, variables)
    others = {v: 0 for v in range(4, variables)} if all_given else {}
    chain_moves = []
    for step, (v, x) in enumerate(facts):
        before = dict([facts[step - 1]] if step else [(variables - 1, 0)])
        chain_moves.append(({1: 1, **others, **before}, {**others, v: x}))
    chain_moves.reverse()
    doors = [({1: 0}, {1: 1, 2: n % 16, 3: n // 16}) for n in range(40)]
    return doors + chain_moves


def door_sizes(variables):
    """The sizes of the variables of these models: 2 and 3 are the field that is walked."""
    return [2, 2] + [16] * (variables - 2)


def doors_within_a_walk(variables, all_given):
    """A probe: 256 states are walked, and of each it is asked of forty successors whether they are dead."""
    sets = [({1: 0}, {v: x}) for v in (2, 3) for x in range(16)]
    last = [({1: 0, 2: LAST, 3: LAST}, {0: 1})]
    model = Model(door_sizes(variables), doors_and_chain(variables, all_given) + sets + last, {0: 1})
    return model, probe(model.start)


def doors_within_a_settle(variables, all_given):
    """A settle of which each round marks one candidate, and each candidate has forty doors."""
    steps = [({1: 0, 3: x}, {3: x - 1}) for x in range(1, 16)]
    steps += [({1: 0, 2: x, 3: 0}, {2: x - 1, 3: LAST}) for x in range(1, 16)]
    steps.append(({1: 0, 2: 0, 3: 0}, {0: 1}))
    model = Model(door_sizes(variables), doors_and_chain(variables, all_given) + steps, {0: 1})
    rest = {v: 0 for v in range(4, variables)}
    rows = [{0: 0, 1: 0, 2: a, 3: b, **rest} for a in range(16) for b in range(16)]
    return model, listed(rows) + [command("T")]


def relaxed_limits():
    """The relaxed detector with as many rounds as it can have, alone and within orders."""
    model, order = relaxed_judge()
    yield "judge-relaxed-129-rounds", opened(model, RELAXED) + order
    for name, variables, all_given in (("", 8, False), ("-wide", 32, True)):
        model, order = doors_within_a_walk(variables, all_given)
        yield f"probe-relaxed-doors{name}", opened(model, RELAXED) + order
        model, order = doors_within_a_settle(variables, all_given)
        yield f"settle-relaxed-doors{name}", opened(model, RELAXED) + order


def whole_relaxed():
    """Whole sheets of long verdicts, and of orders that ask for many."""
    model, order = relaxed_judge()
    yield "whole-judges-relaxed", repeated(opened(model, RELAXED), order)
    model, order = doors_within_a_walk(8, False)
    yield "whole-probes-relaxed-doors", repeated(opened(model, RELAXED), order)
    model, order = doors_within_a_settle(8, False)
    yield "whole-settles-relaxed-doors", repeated(opened(model, RELAXED), order)


# The pattern detector at its limits

def cube():
    """Three variables of size 8 and 128 moves that can always be done: all 512 cuts are reached."""
    sets = [({}, {v: x}) for v in range(3) for x in range(8)]
    pairs = [({}, {0: a, 1: b}) for a in range(8) for b in range(8)]
    more = [({}, {1: a, 2: b}) for a in range(8) for b in range(5)]
    return Model([8, 8, 8, 2], (sets + pairs + more)[:128], {0: 7, 1: 7, 2: 7, 3: 1})


def cut_off_cube():
    """A field of 256 states to walk, where the first variable of the pattern is 0; 96 moves lead from each
    to where it is above 0: 448 cuts, from none of which the cut goal is reached."""
    field_moves = [({0: 0}, {v: x}) for v in (3, 4) for x in range(16)][:31]
    leads = [({}, {0: a, 1: b}) for a in range(1, 8) for b in range(8)]
    leads += [({}, {0: a, 2: b}) for a in range(1, 6) for b in range(8)]
    last = [({0: 0, 3: LAST, 4: LAST - 1}, {5: 1})]
    return Model([8, 8, 8, 16, 16, 2], leads[:96] + field_moves + last, {0: 0, 5: 1})


def patterns():
    """Verdicts with 512 cuts, alone and within a walk."""
    chosen = detector(2, 0, 1, 2)
    yield "judge-pattern-512-cuts", opened(cube(), chosen) + judge({0: 0, 1: 0, 2: 0})
    model = cut_off_cube()
    yield "probe-pattern-448-cuts", opened(model, chosen) + probe(model.start)


def whole_patterns():
    """Whole sheets of verdicts with 512 cuts."""
    chosen = detector(2, 0, 1, 2)
    yield "whole-judges-pattern", repeated(opened(cube(), chosen), judge({0: 0, 1: 0, 2: 0}))
    model = cut_off_cube()
    yield "whole-probes-pattern", repeated(opened(model, chosen), probe(model.start))


# Learning

def locked_field(variables, moving, walking_moves):
    """A door on variable 0 opens only with the last variable at 1, which no move brings; 256 states are
    walked. So a part keeps rule 2 only when it has regained the last variable, and all before it."""
    sizes = [2] * variables
    first = moving
    sizes[first] = sizes[first + 1] = 16
    if walking_moves == "set":
        sets = [({}, {v: x}) for v in (first, first + 1) for x in range(16)]
        walking = [sets[n % 32] for n in range(127)]
    else:
        walking = [({v: x}, {v: (x + 1) % 16}) for v in (first, first + 1) for x in range(16)]
    door = ({variables - 1: 1}, {0: 1})
    return Model(sizes, walking + [door], {0: 1})


def learnings():
    """Learning of 256 states; each regains 31 entries, or as many as the name says."""
    model = locked_field(32, 29, "step")
    yield "learn-7936-step", opened(model, BARE) + probe(model.start)
    model = locked_field(32, 29, "set")
    yield "learn-7936-set", opened(model, BARE) + probe(model.start)
    model = locked_field(32, 1, "set")
    yield "learn-7936-set-early", opened(model, BARE) + probe(model.start)
    model = locked_field(8, 5, "set")
    yield "learn-1792-set", opened(model, BARE) + probe(model.start)
    model = locked_field(4, 1, "set")
    yield "learn-768-set", opened(model, BARE) + probe(model.start)
    yield "learn-domino", domino()
    yield "learn-relaxed-silent", learn_relaxed()


def domino():
    """Of 256 states each steps to the next. The door is locked by variable 31 as before, and can be tried
    in the last state alone, so that regaining runs back from the last to the first, entry by entry."""
    first = 29
    sizes = [2] * 32
    sizes[first] = sizes[first + 1] = 16
    forth = [({first + 1: x}, {first + 1: x + 1}) for x in range(15)]
    forth += [({first: x, first + 1: 15}, {first: x + 1, first + 1: 0}) for x in range(15)]
    door = [({first: LAST, first + 1: LAST, 31: 1}, {0: 1})]
    model = Model(sizes, (forth * 4)[:120] + door, {0: 1})
    return opened(model, BARE) + probe(model.start)


def learn_relaxed():
    """The locked field of 128 states under the relaxed detector, which is silent on all: the key wants two
    values that are never there at once."""
    variables = 32
    sizes = [2] * variables
    sizes[28], sizes[29] = 8, 16
    sets = [({}, {28: x}) for x in range(8)] + [({}, {29: x}) for x in range(16)]
    swaps = [({30: 1, 31: 0}, {30: 0, 31: 1}), ({30: 0, 31: 1}, {30: 1, 31: 0})]
    door = [({30: 1, 31: 1}, {0: 1})]
    moves = [sets[n % 24] for n in range(125)] + swaps + door
    model = Model(sizes, moves, {0: 1}, {**{v: 0 for v in range(variables)}, 30: 1})
    return opened(model, RELAXED) + probe(model.start)


def whole_learnings():
    """Whole sheets of probes that learn 256 rows where 255 have room, and are refused with 14."""
    for variables, moving in ((32, 29), (8, 5), (4, 1)):
        model = locked_field(variables, moving, "set")
        # The row that is held gives the last variable a value that no listed state has.
        model.sizes[variables - 1] = 3
        held = {0: 0, variables - 1: 2}
        head = opened(model, BARE) + listed([held]) + [command("O")]
        yield f"whole-probes-14-{variables}", repeated(head, probe(model.start))


def all_workloads():
    """Every workload, in the order of the table."""
    parts = [
        (small_models, "a sheet of the examples", False),
        (fuel_lines, "a truck with fuel for so many drives, counting loads", False),
        (loaded_trucks, "a truck with fuel that carries one load and returns", False),
        (walks, "a walk of 256 states with 128 moves", False),
        (settles, "256 rows, up to 128 moves", False),
        (relaxed_limits, "the relaxed detector at its limits", False),
        (patterns, "the pattern detector at its limits", False),
        (learnings, "learning of 256 listed states", False),
        (whole_walks, "a whole sheet of probes", True),
        (whole_settles, "a whole sheet of settles or offers", True),
        (whole_relaxed, "a whole sheet under the relaxed detector", True),
        (whole_patterns, "a whole sheet under the pattern detector", True),
        (whole_learnings, "a whole sheet of probes that are refused with 14", True),
    ]
    for part, note, whole in parts:
        for name, sheet in part():
            yield Workload(name, sheet if isinstance(sheet, bytes) else b"".join(sheet), note, whole)


def main():
    parser = argparse.ArgumentParser(description="Tells or writes the workloads.")
    parser.add_argument("--out", metavar="DIR", help="write the sheets to this folder")
    chosen = parser.parse_args()
    for workload in all_workloads():
        print(f"{workload.name:32} {len(workload.sheet):6}  {workload.note}{' (whole)' if workload.whole else ''}")
        if chosen.out is not None:
            os.makedirs(chosen.out, exist_ok=True)
            with open(os.path.join(chosen.out, workload.name + ".sheet"), "wb") as file:
                file.write(workload.sheet)


if __name__ == "__main__":
    main()
