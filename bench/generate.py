#!/usr/bin/env python3
"""Writes generated sheets: the same seed, number and kinds give the same sheet.

    bench/generate.py --seed 1 --count 100 --out DIR     writes DIR/1-0-small.sheet and so on
    bench/generate.py --list                             prints the kinds

A sheet is held as a list of its commands, so that the damaging kinds can drop, double and move them.
"""

import argparse
import os
import random

SHEET_BYTES = 65536
NO_VARIABLE = 255
WIDTHS = {"V": 9, "A": 8, "P": 2, "E": 2, "S": 2, "G": 2, "Z": 0, "D": 4,
          "R": 2, "N": 0, "O": 0, "T": 0, "J": 0, "Q": 0, "W": 0}


def command(letter, *operands):
    """The bytes of a command; an operand is a number or the bytes of a name."""
    operand_bytes = b"".join(o if isinstance(o, bytes) else bytes([o]) for o in operands)
    return letter.encode() + operand_bytes


def name(text):
    """A name of eight bytes."""
    return text.encode()[:8].ljust(8)


class Model:
    """A model as a sheet writes it: rows are dictionaries from variable to value."""

    def __init__(self, sizes, moves, goal, start=None):
        self.sizes = list(sizes)
        self.moves = [(dict(conditions), dict(effects)) for conditions, effects in moves]
        self.goal = dict(goal)
        self.start = dict(start) if start is not None else {v: 0 for v in range(len(self.sizes))}

    def commands(self, rng=None):
        """The commands up to and with `Z`. With a generator the entries stand in any order allowed."""
        out = [command("V", size, name(f"v{v}")) for v, size in enumerate(self.sizes)]
        for number, (conditions, effects) in enumerate(self.moves):
            out.append(command("A", name(f"m{number}")))
            parts = [command("P", v, x) for v, x in conditions.items()]
            parts += [command("E", v, x) for v, x in effects.items()]
            if rng is not None and rng.random() < 0.3:
                rng.shuffle(parts)
            out += parts
        ends = [command("S", v, x) for v, x in self.start.items()]
        ends += [command("G", v, x) for v, x in self.goal.items()]
        if rng is not None and rng.random() < 0.3:
            rng.shuffle(ends)
        return out + ends + [command("Z")]


def detector(kind, *variables):
    """The command of a detector; variables not given are none."""
    return command("D", kind, *(list(variables) + [NO_VARIABLE] * 3)[:3])


def any_detector(rng, model):
    """The command of a detector that the model has."""
    kind = rng.choice([0, 0, 1, 1, 2, 2])
    if kind == 2 and model.sizes:
        chosen = sorted(rng.sample(range(len(model.sizes)), min(len(model.sizes), rng.randint(1, 3))))
        while len(chosen) > 1 and product(model.sizes[v] for v in chosen) > 512:
            chosen.pop()
        return detector(2, *chosen)
    return detector(kind % 2)


def mostly_bare(rng, model):
    """As any_detector, but mostly the bare one, where the relaxed one would know too much."""
    return detector(0) if rng.random() < 0.7 else any_detector(rng, model)


def product(numbers):
    result = 1
    for number in numbers:
        result *= number
    return result


# Rows and orders

def entries(row):
    """The commands that enter a row."""
    return [command("R", v, x) for v, x in row.items()]


def listed(rows):
    """The commands that enter and list rows."""
    out = []
    for row in rows:
        out += entries(row)
        out.append(command("N"))
    return out


def some_row(rng, model, given):
    """A row of the model in which each variable is given with a likelihood."""
    return {v: rng.randrange(max(1, size)) for v, size in enumerate(model.sizes) if rng.random() < given}


def some_state(rng, model):
    """A state: at times the start, at times one that is near the goal."""
    state = {v: rng.randrange(max(1, size)) for v, size in enumerate(model.sizes)}
    chance = rng.random()
    if chance < 0.3:
        return dict(model.start)
    if chance < 0.5:
        for v, x in model.goal.items():
            if rng.random() < 0.6:
                state[v] = x
    return state


def one_entry_rows(model):
    """Each value of each variable alone."""
    return [{v: x} for v, size in enumerate(model.sizes) for x in range(size)]


def progression(move, row):
    """What a move makes of a row, or None if it is not applicable."""
    conditions, effects = move
    if any(v in row and row[v] != x for v, x in conditions.items()):
        return None
    return {**conditions, **row, **effects}


def keeps_rule_1(model, row):
    """Whether a row disagrees with the goal."""
    return any(v in row and row[v] != x for v, x in model.goal.items())


def stands_together(model, rows):
    """The largest selection of rows that keeps both rules with no help of a detector or a book."""
    kept = [row for row in rows if keeps_rule_1(model, row)]

    def stays(row):
        for move in model.moves:
            onward = progression(move, row)
            if onward is None:
                continue
            if not any(all(onward.get(v) == x for v, x in other.items()) for other in kept):
                return False
        return True

    while True:
        left = [row for row in kept if stays(row)]
        if len(left) == len(kept):
            return kept
        kept = left


def some_list(rng, model, most=12):
    """Rows for an offer or a settle: at random, single values, those that stand together, and mixtures."""
    chance = rng.random()
    if chance < 0.04:
        return []
    rows = [some_row(rng, model, rng.choice([0.2, 0.4, 0.7, 1.0])) for _ in range(rng.randint(1, most))]
    if chance < 0.5:
        singles = one_entry_rows(model)
        rng.shuffle(singles)
        rows = rows[:rng.randint(0, 4)] + singles[:rng.randint(0, 24)]
    if chance < 0.65 and len(rows) * len(model.moves) < 600:
        rows = stands_together(model, rows) or rows
        rng.shuffle(rows)
        if rng.random() < 0.3:
            rows.append(some_row(rng, model, 0.5))
        if rows and rng.random() < 0.3:
            rows.pop(rng.randrange(len(rows)))
    if rng.random() < 0.4:
        rows = [row for row in rows if keeps_rule_1(model, row)]
    if rows and rng.random() < 0.3:
        rows += [rng.choice(rows) for _ in range(rng.randint(1, 4))]
    if rng.random() < 0.07:
        rows.insert(rng.randint(0, len(rows)), {})
    return rows


def some_orders(rng, model, count, kinds="JQOTW"):
    """Commands behind the detector: so many orders, with entries and lists before them."""
    out = []
    for _ in range(count):
        kind = rng.choice(kinds)
        if kind == "J":
            out += entries(some_row(rng, model, rng.choice([0.3, 0.6, 1.0])))
        elif kind == "Q":
            row = some_state(rng, model) if rng.random() < 0.93 else some_row(rng, model, 0.7)
            shuffled = list(row.items())
            rng.shuffle(shuffled)
            out += entries(dict(shuffled))
        elif kind in "OT":
            out += listed(some_list(rng, model))
            if rng.random() < 0.1:
                # A row stays in hand behind the list.
                out += entries(some_row(rng, model, 0.5))
                out.append(command(kind))
                kind = rng.choice("JQN")
        out.append(command(kind))
    return out


# Models

def any_model(rng):
    """A small model with nothing to it."""
    sizes = [rng.choice([1, 2, 2, 3, 3, 4]) for _ in range(rng.randint(1, 6))]
    moves = []
    for _ in range(rng.choice([0, 1, 2, 3, 4, 5, 6, 8])):
        conditions = {v: rng.randrange(size) for v, size in enumerate(sizes) if rng.random() < 0.35}
        effects = {v: rng.randrange(size) for v, size in enumerate(sizes) if rng.random() < 0.3}
        moves.append((conditions, effects))
    goal = {v: rng.randrange(size) for v, size in enumerate(sizes) if rng.random() < 0.45}
    start = {v: rng.randrange(size) for v, size in enumerate(sizes)}
    return Model(sizes, moves, goal, start)


def truck(places, fuel, loads, roads, goal_places):
    """A truck drives between places while its fuel lasts and carries loads. Variables: the truck's
    place, its fuel, and the place of each load, of which the value `places` is in the truck."""
    sizes = [places, fuel + 1] + [places + 1] * loads
    moves = []
    for here, there in roads:
        for left in range(1, fuel + 1):
            moves.append(({0: here, 1: left}, {0: there, 1: left - 1}))
    for load in range(loads):
        for place in range(places):
            moves.append(({0: place, 2 + load: place}, {2 + load: places}))
            moves.append(({0: place, 2 + load: places}, {2 + load: place}))
    start = {0: 0, 1: fuel, **{2 + load: 0 for load in range(loads)}}
    goal = {2 + load: place for load, place in enumerate(goal_places)}
    return Model(sizes, moves[:128], goal, start)


def some_truck(rng):
    """A line with fuel; at times it is too little."""
    places = rng.randint(2, 4)
    roads = [(p, p + 1) for p in range(places - 1)]
    if rng.random() < 0.8:
        roads += [(p + 1, p) for p in range(places - 1)]
    loads = rng.randint(1, 2)
    goals = [rng.randrange(places) for _ in range(loads)]
    return truck(places, rng.randint(1, 6), loads, roads, goals)


def some_locks(rng):
    """Chains that move up by steps; some steps fall into a value that nothing leaves."""
    count = rng.randint(2, 5)
    sizes = [rng.randint(2, 4) for _ in range(count)]
    moves = []
    for v, size in enumerate(sizes):
        for x in range(size - 1):
            conditions, effects = {v: x}, {v: x + 1}
            if rng.random() < 0.6:
                other = rng.randrange(count)
                conditions.setdefault(other, rng.randrange(sizes[other]))
            if rng.random() < 0.4:
                other = rng.randrange(count)
                effects.setdefault(other, rng.randrange(sizes[other]))
            moves.append((conditions, effects))
    rng.shuffle(moves)
    goal = {v: rng.randrange(size) for v, size in enumerate(sizes) if rng.random() < 0.6}
    return Model(sizes, moves, goal or {0: sizes[0] - 1})


def some_one_way(rng):
    """As the lane model: steps up, some of which set another variable back; more variables."""
    count = rng.randint(2, 4)
    size = rng.randint(2, 4)
    moves = []
    for v in range(count):
        for x in range(size - 1):
            effects = {v: x + 1}
            if x == size - 2 and rng.random() < 0.8:
                effects[(v + rng.randint(1, count - 1)) % count] = 0
            moves.append(({v: x}, effects))
    goal = {v: size - 1 for v in range(count)}
    return Model([size] * count, moves, goal)


def some_push(rng):
    """A block on a strip of fields is pushed by somebody who stands beside it; at an end it stays."""
    fields = rng.randint(3, 6)
    moves = []
    for here in range(fields):
        for step in (1, -1):
            there = here + step
            if not 0 <= there < fields:
                continue
            for block in range(fields):
                if block != there and block != here:
                    moves.append(({0: here, 1: block}, {0: there}))
            if 0 <= there + step < fields:
                moves.append(({0: here, 1: there}, {0: there, 1: there + step}))
    rng.shuffle(moves)
    return Model([fields, fields], moves[:128], {1: rng.randrange(fields)}, {0: 0, 1: rng.randint(1, fields - 1)})


def grid(sizes, goal_variable=True, extra=0, way_at=None):
    """Variables that step up and round, each alone, and one more that has the goal's value 1 and is 0.
    So product(sizes) states are listed. `extra` states hang on the state of zeros: dead, if there is
    no way out of them. With `way_at` the goal is reached from that state alone."""
    count = len(sizes)
    goal_at, extra_at = count, count + 1
    all_sizes = list(sizes) + [2, extra + 1]
    moves = []
    for v, size in enumerate(sizes):
        for x in range(size):
            if size > 1:
                moves.append(({v: x, extra_at: 0}, {v: (x + 1) % size}))
    for x in range(extra):
        at_zeros = {v: 0 for v in range(count)}
        moves.append(({**at_zeros, extra_at: x}, {extra_at: x + 1}))
    if way_at is not None:
        moves.append(({**dict(enumerate(way_at)), extra_at: 0}, {goal_at: 1}))
    return Model(all_sizes, moves[:128], {goal_at: 1})


# Kinds of sheets: each gives a list of commands

def small(rng):
    model = any_model(rng)
    orders = some_orders(rng, model, rng.choice([1, 3, 6, 12, 25]))
    return model.commands(rng) + [any_detector(rng, model)] + orders


def much_is_dead(rng):
    model = rng.choice([some_truck, some_locks, some_one_way, some_push])(rng)
    orders = some_orders(rng, model, rng.choice([2, 6, 15]), rng.choice(["JQOTW", "Q", "JQQW", "TJOW", "QT"]))
    return model.commands(rng) + [any_detector(rng, model)] + orders + [command("W")]


def wide_model(rng, variables=32, size=16, moves=128, given=0.1):
    sizes = [size] * variables
    rows = []
    for _ in range(moves):
        conditions = {v: rng.randrange(size) for v in range(variables) if rng.random() < given}
        effects = {v: rng.randrange(size) for v in rng.sample(range(variables), rng.randint(1, min(3, variables)))}
        rows.append((conditions, effects))
    goal = {v: rng.randrange(size) for v in rng.sample(range(variables), rng.randint(1, variables))}
    return Model(sizes, rows, goal, {v: rng.randrange(size) for v in range(variables)})


def at_the_limits(rng):
    """32 variables, 128 moves, sizes of 16, lists of 256 rows; and one more of one of them."""
    variables = rng.choice([1, 3, 31, 32, 32, 33])
    model = wide_model(rng, variables, rng.choice([1, 2, 15, 16, 16, 17]), rng.choice([1, 126, 127, 128, 128, 129]),
                       rng.choice([0.02, 0.1, 0.5, 1.0]))
    model.goal = dict(list(model.goal.items())[:rng.choice([1, 2, 40])])
    if rng.random() < 0.15:
        model.sizes[-1] = rng.choice([0, 17])
    chosen = any_detector(rng, model)
    rows = rng.choice([3, 255, 256, 256, 256, 257])
    given = rng.choice([0.05, 0.05, 0.3])
    orders = listed([some_row(rng, model, given) for _ in range(rows)]) + [command(rng.choice("OTT"))]
    orders += some_orders(rng, model, rng.randint(1, 4))
    if rng.random() < 0.5:
        orders = some_orders(rng, model, rng.randint(1, 4)) + orders
    return model.commands() + [chosen] + orders


def about_256_states(rng):
    """Probes that need just 256 places, or one more or less, or many more; with and without a way."""
    sizes = rng.choice([[16, 16], [4, 4, 4, 4], [2] * 8, [16, 4, 4], [15, 17 - 1], [5, 3, 17 - 1], [16, 15], [8, 8, 4]])
    extra = max(0, min(15, 256 - product(sizes) + rng.choice([-1, 0, 0, 1, 1, 2])))
    way_at = None
    if rng.random() < 0.4:
        way_at = [rng.choice([size - 1, rng.randrange(size)]) for size in sizes]
    model = grid(sizes, extra=extra, way_at=way_at)
    if rng.random() < 0.3:
        rng.shuffle(model.moves)
    orders = []
    for _ in range(rng.randint(1, 3)):
        start = dict(model.start)
        if rng.random() < 0.6:
            for v, size in enumerate(sizes):
                start[v] = rng.randrange(size)
        orders += entries(start) + [command("Q")]
        if rng.random() < 0.3:
            orders += some_orders(rng, model, 2, "JTOW")
    return model.commands() + [mostly_bare(rng, model)] + orders


def much_is_regained(rng):
    """A door on the first variable opens only with what a state gives in late variables, so that the
    parts have to regain what lies between."""
    count = rng.randint(3, rng.choice([5, 8, 12, 32]))
    size = rng.choice([2, 2, 3])
    moving = rng.sample(range(1, count), min(count - 1, rng.randint(1, 6)))
    moves = []
    for v in moving:
        for x in range(size):
            conditions = {v: x}
            if rng.random() < 0.2:
                other = rng.choice(moving)
                conditions.setdefault(other, rng.randrange(size))
            moves.append((conditions, {v: (x + 1) % size}))
    still = [v for v in range(1, count) if v not in moving] or [count - 1]
    for _ in range(rng.randint(1, 3)):
        key = rng.choice(still)
        moves.append(({key: size - 1}, {0: size - 1}))
        if rng.random() < 0.4:
            other = rng.choice(moving)
            moves.append(({key: size - 1, other: rng.randrange(size)}, {0: rng.randrange(size)}))
    rng.shuffle(moves)
    goal = {0: size - 1}
    if rng.random() < 0.3:
        goal[rng.randrange(count)] = size - 1
    model = Model([size] * count, moves[:128], goal)
    orders = []
    for _ in range(rng.randint(1, 3)):
        state = dict(model.start)
        for v in rng.sample(range(count), rng.randint(0, 3)):
            state[v] = rng.randrange(size)
        orders += entries(state) + [command("Q")]
    return model.commands(rng) + [mostly_bare(rng, model)] + orders + some_orders(rng, model, 3) + [command("W")]


def full_book(rng):
    """Books that become full by offers, settles and probes."""
    if rng.random() < 0.4:
        # Without moves whatever disagrees with the goal may be offered.
        model = Model([16, 16, 16, 2], [], {3: 1})
        orders = []
        held = 0
        for _ in range(rng.randint(2, 4)):
            count = rng.choice([256, 256 - held % 256, 257 - held % 256, rng.randint(1, 256)])
            count = max(1, min(256, count))
            rows = [{0: rng.randrange(16), 1: rng.randrange(16), 2: rng.randrange(16), 3: 0} for _ in range(count)]
            orders += listed(rows) + [command(rng.choice("OT"))]
            held += count
            orders += some_orders(rng, model, rng.randint(0, 3), "JQOT")
        return model.commands() + [mostly_bare(rng, model)] + orders + [command("W")]
    # A door that opens where another variable is 1, and fields that are walked: each part is whole.
    sizes = rng.choice([[8, 8], [10, 10], [12, 8], [16, 8], [15, 9], [6, 6]])
    moves = []
    for v, size in enumerate(sizes):
        for x in range(size):
            moves.append(({1 + v: x}, {1 + v: (x + 1) % size}))
    last = len(sizes) + 2
    moves.append(({last: 1}, {0: 1}))
    model = Model([2] + sizes + [16, 2], moves, {0: 1})
    orders = []
    for kind in range(rng.randint(2, 5)):
        state = {0: 0, 1: 0, 2: 0, 3: kind, 4: 0}
        orders += entries(state) + [command("Q")]
        orders += some_orders(rng, model, rng.randint(0, 2), "JQT")
    if rng.random() < 0.5:
        rows = [{0: 0, 1: a, 2: b, 3: 15, 4: 0} for a in range(sizes[0]) for b in range(sizes[1])][:256]
        orders += listed(rows) + [command(rng.choice("OT"))]
    return model.commands() + [mostly_bare(rng, model)] + orders + [command("W")]


def broken_offers(rng):
    """Offers that break rule 1 or rule 2, at first or later rows and moves."""
    model = rng.choice([some_truck, some_locks, some_one_way, some_push, any_model])(rng)
    orders = []
    for _ in range(rng.randint(2, 6)):
        rows = stands_together(model, one_entry_rows(model) + [some_row(rng, model, 0.6) for _ in range(8)])
        rng.shuffle(rows)
        chance = rng.random()
        if chance < 0.3 and rows:
            rows.pop(rng.randrange(len(rows)))
        elif chance < 0.6:
            more = [some_row(rng, model, 0.6) for _ in range(3)]
            rows += [row for row in more if keeps_rule_1(model, row) or rng.random() < 0.1]
        elif chance < 0.8:
            part = {v: x for v, x in model.goal.items() if rng.random() < 0.5}
            rows.insert(rng.randint(0, len(rows)), part)
        orders += listed(rows) + [command(rng.choice("OOOT"))]
        if rng.random() < 0.4:
            orders += some_orders(rng, model, 2, "JQW")
    return model.commands(rng) + [any_detector(rng, model)] + orders


def wrong_entries(rng):
    """Wrong variables, values, sizes, kinds and operands, and entries given twice, where they may stand."""
    commands = rng.choice([small, much_is_dead])(rng)
    letters = rng.choice([b"V", b"D", b"D", b"R", b"PE", b"SG", b"VPESGRD"])
    places = [i for i, c in enumerate(commands) if c[:1] in letters]
    place = rng.choice(places or [i for i, c in enumerate(commands) if c[:1] == b"D"])
    old = commands[place]
    if old[:1] == b"V":
        commands[place] = old[:1] + bytes([rng.choice([0, 1, 16, 17, 255])]) + old[2:]
    elif old[:1] == b"D":
        operands = rng.choice([
            [rng.randrange(256)] + [NO_VARIABLE] * 3,
            [rng.randrange(4)] + [rng.choice([0, 1, 2, 5, 6, NO_VARIABLE]) for _ in range(3)],
            [2] + [rng.randrange(7) for _ in range(3)],
            [2] + sorted(rng.randrange(6) for _ in range(3)),
            [2, NO_VARIABLE, 0, 1], [2, 0, NO_VARIABLE, 1], [2, 0, 0, NO_VARIABLE], [0, 0, NO_VARIABLE, NO_VARIABLE],
            [rng.randrange(2), NO_VARIABLE] + rng.choice([[0, NO_VARIABLE], [NO_VARIABLE, 0]]),
        ])
        commands[place] = command("D", *operands)
    else:
        entry = rng.choice([
            [old[1], old[2]], [old[1], old[2] ^ 1], [old[1], rng.choice([4, 15, 16, 255])],
            [rng.choice([4, 6, 31, 32, 255]), rng.choice([0, 255])],
        ])
        wrong = old[:1] + bytes(entry)
        commands[place:place + 1] = [old, wrong] if rng.random() < 0.6 else [wrong]
    return commands


def late_commands(rng):
    """A command that stands where it may not, or at the edge of where it may."""
    commands = small(rng)
    letter = rng.choice(sorted(WIDTHS))
    operands = [rng.choice([0, 0, 1, 2, 255]) for _ in range(WIDTHS[letter])]
    if letter == "V":
        operands[0] = rng.choice([0, 2, 16])
    commands.insert(rng.randint(0, len(commands)), command(letter, *operands))
    return commands


def pattern_at_512(rng):
    """Patterns whose sizes multiply to just 512, or more."""
    sizes = rng.choice([[8, 8, 8], [16, 16, 2], [16, 16, 3], [16, 8, 4], [8, 8, 9], [16, 4, 8], [16, 16]])
    moves = []
    for _ in range(rng.choice([20, 60, 128])):
        conditions = {v: rng.randrange(size) for v, size in enumerate(sizes) if rng.random() < 0.35}
        effects = {v: rng.randrange(size) for v, size in enumerate(sizes) if rng.random() < 0.5}
        moves.append((conditions, effects))
    more = [2] * rng.randint(0, 3)
    goal = {v: rng.randrange(size) for v, size in enumerate(sizes) if rng.random() < 0.8}
    model = Model(sizes + more, moves, goal or {0: 1})
    operands = list(range(len(sizes)))
    chosen = detector(2, *operands[:rng.choice([2, 3, 3, 3])])
    return model.commands() + [chosen] + some_orders(rng, model, rng.randint(3, 10), "JJJQOT")


def long_sheet(rng):
    """Sheets of many thousand bytes, at times just at the limit or a byte beyond it."""
    model = rng.choice([some_truck, some_locks, some_one_way, some_push, any_model])(rng)
    commands = model.commands(rng) + [any_detector(rng, model)]
    goal_bytes = rng.choice([8000, 20000, SHEET_BYTES, SHEET_BYTES, SHEET_BYTES + 1, SHEET_BYTES + 9])
    length = sum(map(len, commands))
    block = some_orders(rng, model, 60, rng.choice(["JQOT", "JJJQ", "JQOTW"]))
    while True:
        for c in block:
            if length + len(c) > goal_bytes - 3:
                break
            commands.append(c)
            length += len(c)
        else:
            if rng.random() < 0.5:
                block = some_orders(rng, model, 40, "JQOT")
            continue
        break
    while length < goal_bytes:
        commands.append(command("J"))
        length += 1
    return commands


# Damage

def cut_off(rng, sheet):
    return sheet[:rng.randint(0, len(sheet))]


def change_a_byte(rng, sheet):
    if not sheet:
        return sheet
    place = rng.randrange(len(sheet))
    value = rng.choice([0, 1, 2, 3, 16, 255, rng.randrange(256), ord(rng.choice("VAPESGZDRNOTJQW"))])
    return sheet[:place] + bytes([value]) + sheet[place + 1:]


def drop_a_byte(rng, sheet):
    place = rng.randrange(max(1, len(sheet)))
    return sheet[:place] + sheet[place + 1:]


def damaged(rng):
    """Another sheet with one or two things done to it."""
    commands = rng.choice([small, small, much_is_dead, broken_offers, much_is_regained, about_256_states])(rng)
    for _ in range(rng.choice([1, 1, 2])):
        place = rng.randrange(len(commands))
        what = rng.randrange(5)
        if what == 0:
            del commands[place]
        elif what == 1:
            commands.insert(place, commands[place])
        elif what == 2:
            moved = commands.pop(place)
            commands.insert(rng.randint(0, len(commands)), moved)
        elif what == 3:
            unknown = rng.choice([0, 10, 32, 66, 86 + 32, 255, rng.randrange(256)])
            commands.insert(place, bytes([unknown]))
        else:
            commands = commands[:place] + [b"".join(commands[place:])]
            commands[-1] = rng.choice([cut_off, change_a_byte, drop_a_byte])(rng, commands[-1])
        if not commands:
            return [b""]
    sheet = b"".join(commands)
    if rng.random() < 0.5:
        sheet = rng.choice([cut_off, change_a_byte, change_a_byte, drop_a_byte])(rng, sheet)
    return [sheet]


def noise(rng):
    """Command bytes with operands of small numbers, in any order; few come far."""
    out = []
    for _ in range(rng.randint(0, 30)):
        letter = rng.choice("VVAPEPESGZDRNOTJQW")
        out.append(command(letter, *[rng.choice([0, 0, 1, 2, 255]) for _ in range(WIDTHS[letter])]))
    if rng.random() < 0.5:
        order = "VAPESGZDRNOTJQW"
        out.sort(key=lambda c: min(order.index(chr(c[0])), order.index("R")))
    return out


# The kinds by name, each with how many of a hundred sheets it is.
KINDS = {
    "small": (small, 22),
    "much_is_dead": (much_is_dead, 15),
    "at_the_limits": (at_the_limits, 5),
    "about_256_states": (about_256_states, 5),
    "much_is_regained": (much_is_regained, 8),
    "full_book": (full_book, 4),
    "broken_offers": (broken_offers, 9),
    "wrong_entries": (wrong_entries, 8),
    "late_commands": (late_commands, 5),
    "pattern_at_512": (pattern_at_512, 3),
    "long_sheet": (long_sheet, 1),
    "damaged": (damaged, 12),
    "noise": (noise, 3),
}


def generated(seed, number, only=None):
    """The kind and the bytes of the sheet with this number of a seed."""
    rng = random.Random(f"sheet {seed} {number}")
    kinds = list(KINDS)
    kind = rng.choices(kinds, [KINDS[k][1] for k in kinds])[0]
    if only is not None:
        kind = only[number % len(only)]
    return kind, b"".join(KINDS[kind][0](rng))


def main():
    parser = argparse.ArgumentParser(description="Writes generated sheets.")
    parser.add_argument("--seed", type=int, default=1)
    parser.add_argument("--first", type=int, default=0, help="the number of the first sheet")
    parser.add_argument("--count", type=int, default=100)
    parser.add_argument("--only", action="append", choices=sorted(KINDS), help="this kind alone; may be repeated")
    parser.add_argument("--out", default="sheets")
    parser.add_argument("--list", action="store_true", help="print the kinds, and how many of a hundred each is")
    chosen = parser.parse_args()
    if chosen.list:
        for kind, (_, share) in KINDS.items():
            print(f"{kind} {share}")
        return
    os.makedirs(chosen.out, exist_ok=True)
    for number in range(chosen.first, chosen.first + chosen.count):
        kind, sheet = generated(chosen.seed, number, chosen.only)
        with open(os.path.join(chosen.out, f"{chosen.seed}-{number}-{kind}.sheet"), "wb") as file:
            file.write(sheet)


if __name__ == "__main__":
    main()
