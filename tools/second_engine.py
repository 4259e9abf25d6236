#!/usr/bin/env python3
"""A colour engine in whole numbers, written for comparison with another engine over many random requests.

The file holds, in this order: the exact means over samples (as literal sums and as quick sums), the stages (curves,
matrix, lattice, joined), the opening of profiles and chains, pixel kinds, the converter, the request lines and their
answers, and the command line. Floating point numbers occur nowhere. `second_engine_checks.py` holds it to the literal
sums, to worked figures and to the laws, `random_cases.py` makes random requests, and `limit_cases.py` those at the limits.

A count is a channel's value, 0 to 65,535; a grain is 1/65,536 of a count. Errors are told in grains, steepness in
grains per count. An exact colour is four numerators over one denominator.
"""

from __future__ import annotations

import struct
import sys
from dataclasses import dataclass
from fractions import Fraction
from functools import cached_property

import limit_cases
import random_cases

FULL = 65_535  # the largest count
GRAINS = 65_536  # grains in one count
SWING = FULL * GRAINS  # the largest error, in grains
TOP = 1 << 30  # the steepness that claims nothing
WIDTH = 4  # channels of every colour
HALF = GRAINS // 2  # the error of one rounding


def ceil_div(number, divisor):
    """The quotient, rounded up."""
    return -(-number // divisor)


def nearest(number, divisor):
    """The quotient, rounded to the nearest whole number, halves upward."""
    return (2 * number + divisor) // (2 * divisor)


def padded(channels):
    """The channels, followed by zeros up to the width of a colour."""
    return tuple(channels) + (0,) * (WIDTH - len(channels))


# ---- Entries ---------------------------------------------------------------------------------------------------------


class Entries:
    """A list of counts that reads as 0 beyond its end."""

    def __init__(self, counts):
        self.counts = counts

    def at(self, index):
        return self.counts[index] if index < len(self.counts) else 0

    def part(self, start, length):
        return Entries(self.counts[start:start + length])


def word_entries(data):
    """Entries of two bytes each, high byte first."""
    return Entries(struct.unpack(f">{len(data) // 2}H", data[:len(data) // 2 * 2]))


def byte_entries(data):
    """Entries of one byte each; 255 stands for the largest count."""
    return Entries(tuple(257 * value for value in data))


# ---- Means over samples ----------------------------------------------------------------------------------------------


def mean_by_samples(full, denominator, positions, value):
    """The literal mean: one sample variable moves all positions, and every sample is taken one by one."""
    span = full * denominator
    total = 0
    for s in range(span):
        total += value([(p + s) // span for p in positions])
    return Fraction(total, span)


def mean_by_pairs(full, denominator, positions, value):
    """The literal mean over all pairs: u moves the first position, s moves all the others."""
    span = full * denominator
    total = 0
    for u in range(span):
        first = (positions[0] + u) // span
        for s in range(span):
            total += value([first] + [(p + s) // span for p in positions[1:]])
    return Fraction(total, span * span)


def shares(positions, span):
    """Each list of indices that occurs while one sample runs from 0 to span - 1, with its number of samples.

    An index steps up once, at the sample span - remainder; so the largest remainder steps first.
    """
    index = [p // span for p in positions]
    remainders = [p % span for p in positions]
    found = []
    left = span
    for channel in sorted(range(len(positions)), key=lambda c: -remainders[c]):
        found.append((tuple(index), left - remainders[channel]))
        left = remainders[channel]
        index[channel] += 1
    found.append((tuple(index), left))
    return [(indices, samples) for indices, samples in found if samples > 0]


def pair_shares(positions, span):
    """Each list of indices that occurs over all pairs of samples, with its number of pairs."""
    rest = shares(positions[1:], span)
    return [(first + others, u * s) for first, u in shares(positions[:1], span) for others, s in rest]


# ---- Stages ----------------------------------------------------------------------------------------------------------


class Stage:
    """A map of colours with in- and out-channels, a steepness and an error."""

    inputs: int
    outputs: int
    steepness: int
    error: int

    def exact(self, numerators, denominator):
        """The numerators and the denominator of the exact result."""
        raise NotImplementedError

    def answer(self, colour):
        """The whole counts that running a colour gives."""
        numerators, denominator = self.exact(colour, 1)
        return tuple(nearest(a, denominator) for a in numerators)


class Curves(Stage):
    """One table of entries for each channel, all of the same length."""

    def __init__(self, tables, full=FULL):
        self.tables = tables
        self.full = full
        self.steps = len(tables[0].counts) - 1
        self.inputs = self.outputs = len(tables)
        self.error = HALF

    @cached_property
    def steepness(self):
        jump = max(abs(b - a) for t in self.tables for a, b in zip(t.counts, t.counts[1:]))
        return ceil_div(GRAINS * self.steps * jump, self.full)

    def exact(self, numerators, denominator):
        span = self.full * denominator
        values = []
        for table, a in zip(self.tables, numerators):
            values.append(sum(samples * table.at(index) for (index,), samples in shares([a * self.steps], span)))
        return padded(values), span

    def literal(self, numerators, denominator):
        """The exact result again, each channel summed sample by sample."""
        return padded([
            mean_by_samples(self.full, denominator, [a * self.steps], lambda index, t=table: t.at(index[0]))
            for table, a in zip(self.tables, numerators)
        ])


class Matrix(Stage):
    """Nine signed numbers in 65,536ths, three to a row; one row for each out-channel."""

    def __init__(self, coefficients):
        self.rows = [coefficients[start:start + 3] for start in (0, 3, 6)]
        self.inputs = self.outputs = 3
        self.steepness = min(TOP, max(sum(abs(e) for e in row) for row in self.rows))
        self.error = 0 if all(e % GRAINS == 0 for e in coefficients) else HALF

    def exact(self, numerators, denominator):
        span = GRAINS * denominator
        sums = [sum(e * a for e, a in zip(row, numerators)) for row in self.rows]
        return padded([min(max(total, 0), FULL * span) for total in sums]), span


class Lattice(Stage):
    """Nodes on a grid over the in-channels; the first in-channel varies slowest."""

    def __init__(self, inputs, outputs, grid, nodes, full=FULL):
        self.inputs, self.outputs, self.grid, self.nodes, self.full = inputs, outputs, grid, nodes, full
        self.strides = [outputs * grid ** (inputs - 1 - channel) for channel in range(inputs)]
        self.error = HALF

    @cached_property
    def steepness(self):
        return ceil_div(GRAINS * (self.grid - 1) * self.jump(), self.full)

    def jump(self):
        """Of all outputs the largest sum, over the in-channels, of the largest difference between neighbours."""
        totals = [0] * self.outputs
        for stride in self.strides:
            largest = self.largest_differences(stride)
            totals = [total + difference for total, difference in zip(totals, largest)]
        return max(totals)

    def largest_differences(self, stride):
        """For each output the largest difference between nodes that lie one stride apart on the same line."""
        counts, largest = self.nodes.counts, [0] * self.outputs
        for start in range(0, self.grid ** self.inputs * self.outputs, stride * self.grid):
            lower = counts[start:start + stride * (self.grid - 1)]
            upper = counts[start + stride:start + stride * self.grid]
            differences = [abs(b - a) for a, b in zip(lower, upper)]
            largest = [max(largest[k], *differences[k::self.outputs]) for k in range(self.outputs)]
        return largest

    def place(self, indices):
        """Where a node's first output stands."""
        return sum(index * stride for index, stride in zip(indices, self.strides))

    def positions(self, numerators):
        return [a * (self.grid - 1) for a in numerators[:self.inputs]]

    def exact(self, numerators, denominator):
        span = self.full * denominator
        if self.inputs == 4:
            found, whole = pair_shares(self.positions(numerators), span), span * span
        else:
            found, whole = shares(self.positions(numerators), span), span
        weighed = [(self.place(indices), samples) for indices, samples in found]
        return padded([sum(w * self.nodes.at(at + k) for at, w in weighed) for k in range(self.outputs)]), whole

    def literal(self, numerators, denominator):
        """The exact result again, summed sample by sample, or pair by pair for four in-channels."""
        mean = mean_by_pairs if self.inputs == 4 else mean_by_samples
        return padded([
            mean(self.full, denominator, self.positions(numerators), lambda i, k=k: self.nodes.at(self.place(i) + k))
            for k in range(self.outputs)
        ])


class Joined(Stage):
    """Two stages, the second after the first."""

    def __init__(self, first, second):
        self.first, self.second = first, second
        self.inputs, self.outputs = first.inputs, second.outputs
        self.steepness = joined_steepness(first.steepness, second.steepness)
        self.error = joined_error(first.error, second.steepness, second.error)

    def exact(self, numerators, denominator):
        return self.second.exact(*self.first.exact(numerators, denominator))

    def answer(self, colour):
        return self.second.answer(self.first.answer(colour))


def joined_steepness(first, second):
    """Nothing is claimed if either claims nothing."""
    return TOP if TOP in (first, second) else min(TOP, ceil_div(first * second, GRAINS))


def joined_error(first_error, second_steepness, second_error):
    """The first error grows by the second steepness."""
    if second_steepness == TOP:
        return SWING
    return min(SWING, ceil_div(second_steepness * first_error, GRAINS) + second_error)


def joined_from_left(stages):
    result = stages[0]
    for stage in stages[1:]:
        result = Joined(result, stage)
    return result


# ---- Profiles --------------------------------------------------------------------------------------------------------

SPACE_CHANNELS = {b"GRAY": 1, b"RGB ": 3, b"CMYK": 4, b"Lab ": 3, b"XYZ ": 3}
HEADER_END = 132  # the records follow from here
RECORD_BYTES = 12
LARGEST_FILE = 16_777_216
MOST_RECORDS = 64
SMALLEST_ELEMENT = 52


class Fault(Exception):
    """Why a profile was not opened: a number, and the byte place that it concerns."""

    def __init__(self, number, place):
        super().__init__(number, place)
        self.number, self.place = number, place

    @property
    def layer(self):
        """1 for the header, 2 for the directory, 3 for the element."""
        return 1 if self.number <= 3 else 2 if self.number <= 6 else 3


class ChainFault(Exception):
    """Why a chain was not opened: the fault of one profile, or None if its space does not fit; and its position."""

    def __init__(self, fault, position):
        super().__init__(fault, position)
        self.fault, self.position = fault, position


@dataclass(frozen=True)
class Opened:
    """An opened element: the spaces on both sides and its stage."""

    source: bytes
    target: bytes
    stage: Stage


def long_at(data, place):
    return int.from_bytes(data[place:place + 4], "big")


def word_at(data, place):
    return int.from_bytes(data[place:place + 2], "big")


def require(passed, number, place):
    """Ends the opening by a fault unless the condition holds."""
    if not passed:
        raise Fault(number, place)


def open_header(data):
    """The colour space and the other space."""
    require(HEADER_END <= len(data) <= LARGEST_FILE and long_at(data, 0) == len(data), 1, 0)
    require(data[36:40] == b"acsp", 2, 36)
    space, other = data[16:20], data[20:24]
    require(space in SPACE_CHANNELS, 3, 16)
    require(other in SPACE_CHANNELS, 3, 20)
    return space, other


def open_directory(data, tag):
    """The place and the size of the element that the first record with the tag names."""
    count = long_at(data, 128)
    records_end = HEADER_END + RECORD_BYTES * count
    require(count <= MOST_RECORDS and records_end <= len(data), 4, 128)
    records = range(HEADER_END, records_end, RECORD_BYTES)
    record = next((place for place in records if data[place:place + 4] == tag), None)
    require(record is not None, 5, 128)
    place, size = long_at(data, record + 4), long_at(data, record + 8)
    require(place >= records_end and place + size <= len(data), 6, record)
    return place, size


def open_element(data, place, size, channels):
    """The stage of the element; channels are those of the spaces on both sides."""
    require(size >= SMALLEST_ELEMENT, 7, place)
    kind = data[place:place + 4]
    require(kind in (b"mft1", b"mft2"), 8, place)
    inputs, outputs, grid = data[place + 8], data[place + 9], data[place + 10]
    require(inputs in (1, 3, 4) and inputs == channels[0], 9, place + 8)
    require(outputs in (1, 3, 4) and outputs == channels[1], 9, place + 9)
    require(grid >= 2, 10, place + 10)
    if kind == b"mft2":
        n, m, start, width, read = word_at(data, place + 48), word_at(data, place + 50), 52, 2, word_entries
        require(2 <= n <= 4096, 11, place + 48)
        require(2 <= m <= 4096, 11, place + 50)
    else:
        n, m, start, width, read = 256, 256, 48, 1, byte_entries
    length = start + width * (inputs * n + grid ** inputs * outputs + outputs * m)
    require(length <= size, 12, place)
    tables = read(data[place + start:place + length])
    coefficients = struct.unpack(">9i", data[place + 12:place + 48])
    return element_stage(inputs, outputs, grid, (n, m), tables, coefficients)


def element_stage(inputs, outputs, grid, lengths, tables, coefficients):
    """Matrix (for three in-channels), input curves, lattice, output curves."""
    n, m = lengths
    nodes_start = inputs * n
    nodes_end = nodes_start + grid ** inputs * outputs
    stages = [Matrix(coefficients)] if inputs == 3 else []
    stages.append(Curves([tables.part(n * k, n) for k in range(inputs)]))
    stages.append(Lattice(inputs, outputs, grid, tables.part(nodes_start, nodes_end - nodes_start)))
    stages.append(Curves([tables.part(nodes_end + m * k, m) for k in range(outputs)]))
    return joined_from_left(stages)


def open_profile(tag, data):
    """The element that the tag names, or a fault."""
    space, other = open_header(data)
    place, size = open_directory(data, tag)
    source, target = (space, other) if tag == b"A2B0" else (other, space)
    channels = SPACE_CHANNELS[source], SPACE_CHANNELS[target]
    return Opened(source, target, open_element(data, place, size, channels))


def open_chain(profiles):
    """The joined stage of all profiles, each given by tag and bytes, opened one after the other."""
    opened = []
    for position, (tag, data) in enumerate(profiles):
        try:
            element = open_profile(tag, data)
        except Fault as fault:
            raise ChainFault(fault, position) from None
        if opened and opened[-1].target != element.source:
            raise ChainFault(None, position)
        opened.append(element)
    return joined_from_left([element.stage for element in opened])


# ---- Pixel kinds -----------------------------------------------------------------------------------------------------


@dataclass(frozen=True)
class PixelKind:
    """How samples stand for counts: a sample shows factor times itself."""

    channels: int
    factor: int
    largest: int

    @property
    def half(self):
        """The largest distance, in counts, between a count and what its sample shows."""
        return self.factor // 2

    @property
    def error(self):
        return self.half * GRAINS

    def shown(self, pixel):
        return padded([self.factor * sample for sample in pixel])

    def made(self, colour):
        return [(count + self.half) // self.factor for count in colour[:self.channels]]


PIXEL_KINDS = {
    "g8": PixelKind(1, 257, 255), "r8": PixelKind(3, 257, 255), "c8": PixelKind(4, 257, 255),
    "r16": PixelKind(3, 1, 65_535),
}


# ---- The converter ---------------------------------------------------------------------------------------------------


class Refused(Exception):
    """Why a call was not accepted."""

    def __init__(self, number):
        super().__init__(number)
        self.number = number


@dataclass(frozen=True)
class EmptyLink:
    """No link was begun."""

    def __str__(self):
        return "empty"


@dataclass(frozen=True)
class FillingLink:
    """Nodes before the next one are stored."""

    grid: int
    next_node: int

    def __str__(self):
        return f"filling {self.grid} {self.next_node}"


@dataclass(frozen=True)
class FullLink:
    """All nodes are stored."""

    grid: int

    def __str__(self):
        return f"full {self.grid}"


class NodeTable:
    """The numbers of a link; only the first ones, as many as lent, are seen by a call."""

    def __init__(self, numbers):
        self.numbers = numbers
        self.lent = len(numbers)


@dataclass(frozen=True)
class Row:
    """A row call's rows: pixel kinds of both sides, the entering pixels, and the leaving pixels to be written."""

    entering: PixelKind
    leaving: PixelKind
    pixels: list
    output: list


def link_error(stage, grid):
    """How far, in grains, a full link of that grid may lie from the stage's exact map."""
    if stage.steepness == TOP:
        return SWING
    reach = ceil_div(stage.steepness * (2 * FULL + grid - 1), 2 * (grid - 1))
    return min(SWING, stage.error + reach + HALF)


def node_colour(node, grid, inputs):
    """The colour that a node stands for; the last in-channel's index varies fastest."""
    indices = [node // grid ** (inputs - 1 - channel) % grid for channel in range(inputs)]
    return padded([nearest(index * FULL, grid - 1) for index in indices])


def written_element(stage, grid, nodes):
    """A lut16 element that holds the nodes; its matrix and its curves change nothing."""
    head = b"mft2" + bytes(4) + bytes([stage.inputs, stage.outputs, grid, 0])
    matrix = struct.pack(">9i", *[GRAINS if k % 4 == 0 else 0 for k in range(9)])
    ramp = struct.pack(">2H", 0, FULL)
    body = struct.pack(f">{len(nodes)}H", *nodes)
    return head + matrix + struct.pack(">2H", 2, 2) + ramp * stage.inputs + body + ramp * stage.outputs


class Converter:
    """Runs rows through one stage, and fills, runs and writes a link of it."""

    def __init__(self, stage):
        self.stage = stage
        self.link = EmptyLink()

    def numbers(self, grid):
        """How many numbers a link of that grid holds."""
        return grid ** self.stage.inputs * self.stage.outputs

    def refuse_short_table(self, grid, table):
        if table.lent < self.numbers(grid):
            raise Refused(33)

    def refuse_unless_full(self):
        if isinstance(self.link, EmptyLink):
            raise Refused(34)
        if isinstance(self.link, FillingLink):
            raise Refused(36)

    def refuse_misfit(self, row):
        if (row.entering.channels, row.leaving.channels) != (self.stage.inputs, self.stage.outputs):
            raise Refused(31)
        if len(row.pixels) != len(row.output):
            raise Refused(30)

    def begin(self, grid, table):
        if not 2 <= grid <= 33:
            raise Refused(32)
        self.refuse_short_table(grid, table)
        self.link = FillingLink(grid, 0)

    def fill(self, budget, table):
        """Stores the next nodes; returns how many, and how many are missing after them."""
        if isinstance(self.link, EmptyLink):
            raise Refused(34)
        if isinstance(self.link, FullLink):
            raise Refused(35)
        grid, node = self.link.grid, self.link.next_node
        self.refuse_short_table(grid, table)
        count = min(budget, grid ** self.stage.inputs - node)
        for k in range(node, node + count):
            answer = self.stage.answer(node_colour(k, grid, self.stage.inputs))
            table.numbers[k * self.stage.outputs:(k + 1) * self.stage.outputs] = answer[:self.stage.outputs]
        missing = grid ** self.stage.inputs - node - count
        self.link = FillingLink(grid, node + count) if missing > 0 else FullLink(grid)
        return count, missing

    def row(self, row):
        self.refuse_misfit(row)
        return self.run(row, self.stage.answer, self.stage.error)

    def link_row(self, row, table):
        self.refuse_misfit(row)
        self.refuse_unless_full()
        grid = self.link.grid
        self.refuse_short_table(grid, table)
        nodes = Entries(table.numbers[:self.numbers(grid)])
        lattice = Lattice(self.stage.inputs, self.stage.outputs, grid, nodes)
        return self.run(row, lattice.answer, link_error(self.stage, grid))

    @staticmethod
    def run(row, answer, error):
        """Writes every leaving pixel; returns the error with that of the leaving kind."""
        for k, pixel in enumerate(row.pixels):
            row.output[k] = row.leaving.made(answer(row.entering.shown(pixel)))
        return min(SWING, error + row.leaving.error)

    def quote(self):
        """The stage's error, and the link's error or None."""
        return self.stage.error, None if isinstance(self.link, EmptyLink) else link_error(self.stage, self.link.grid)

    def write(self, table, output):
        """Writes the full link in front of the output's bytes; returns its length."""
        self.refuse_unless_full()
        self.refuse_short_table(self.link.grid, table)
        element = written_element(self.stage, self.link.grid, table.numbers[:self.numbers(self.link.grid)])
        if len(output) < len(element):
            raise Refused(37)
        output[:len(element)] = element
        return len(element)

    def drop(self):
        self.link = EmptyLink()


# ---- Request lines ---------------------------------------------------------------------------------------------------

LARGEST_NUMBER = (1 << 64) - 1
LARGEST_LENGTH = 16_777_216
DIGITS = frozenset("0123456789")
HEX_DIGITS = frozenset("0123456789abcdefABCDEF")


class Bad(Exception):
    """The line is no request."""


def whole(token, largest=LARGEST_NUMBER):
    """The number that decimal digits tell."""
    if not token or not DIGITS.issuperset(token):
        raise Bad
    digits = token.lstrip("0") or "0"
    if len(digits) > 20 or int(digits) > largest:
        raise Bad
    return int(digits)


class Tokens:
    """The tokens of one line, taken from the left."""

    def __init__(self, line):
        self.items = line.split(" ")
        self.taken = 0

    def several(self, count):
        """The next tokens, as many as told."""
        if count > len(self.items) - self.taken:
            raise Bad
        self.taken += count
        return self.items[self.taken - count:self.taken]

    def word(self):
        return self.several(1)[0]

    def number(self, largest=LARGEST_NUMBER):
        return whole(self.word(), largest)

    def one_of(self, allowed):
        """A number that must be one of those allowed."""
        number = self.number()
        if number not in allowed:
            raise Bad
        return number

    def numbers(self, count, largest):
        return [whole(token, largest) for token in self.several(count)]

    def coefficient(self):
        """A signed number of 32 bits."""
        token = self.word()
        number = -whole(token[1:]) if token.startswith("-") else whole(token)
        if not -(1 << 31) <= number < 1 << 31:
            raise Bad
        return number

    def tag(self):
        token = self.word()
        if token not in ("A2B0", "B2A0"):
            raise Bad
        return token.encode()

    def profile(self):
        """A tag and a profile's bytes."""
        tag, token = self.tag(), self.word()
        if token == "-":
            return tag, b""
        if not token or len(token) % 2 or not HEX_DIGITS.issuperset(token):
            raise Bad
        return tag, bytes.fromhex(token)

    def profiles(self):
        """A count, at least 1, and as many profiles."""
        count = self.number()
        if not 1 <= count <= len(self.items):
            raise Bad
        return [self.profile() for _ in range(count)]

    def colours(self):
        """A count and as many colours; the line ends behind them."""
        counts = self.numbers(4 * self.number(), FULL)
        self.end()
        return [tuple(counts[k:k + 4]) for k in range(0, len(counts), 4)]

    def more(self):
        return self.taken < len(self.items)

    def end(self):
        if self.more():
            raise Bad


def stage_answer(stage, colours):
    """The stage's numbers, and its answer to each colour."""
    parts = [f"ok {stage.inputs} {stage.outputs} {stage.steepness} {stage.error}"]
    parts += [" ".join(map(str, stage.answer(colour))) for colour in colours]
    return " ; ".join(parts)


def fault_answer(fault):
    return f"fault {fault.number} {fault.layer} {fault.place}"


def chain_fault_answer(chain_fault):
    start = fault_answer(chain_fault.fault) if chain_fault.fault else "fault 13 - -"
    return f"{start} {chain_fault.position}"


def answer_run(tokens):
    tag, data = tokens.profile()
    colours = tokens.colours()
    try:
        return stage_answer(open_profile(tag, data).stage, colours)
    except Fault as fault:
        return fault_answer(fault)


def answer_chain(tokens):
    profiles = tokens.profiles()
    colours = tokens.colours()
    try:
        return stage_answer(open_chain(profiles), colours)
    except ChainFault as chain_fault:
        return chain_fault_answer(chain_fault)


def answer_curve(tokens):
    channels = tokens.one_of((1, 3, 4))
    length = tokens.one_of(range(2, 4097))
    tables = [Entries(tokens.numbers(length, FULL)) for _ in range(channels)]
    return stage_answer(Curves(tables), tokens.colours())


def answer_matrix(tokens):
    coefficients = [tokens.coefficient() for _ in range(9)]
    return stage_answer(Matrix(coefficients), tokens.colours())


def answer_lattice(tokens):
    inputs, outputs = tokens.one_of((1, 3, 4)), tokens.one_of((1, 3, 4))
    grid = tokens.one_of(range(2, 256))
    nodes = Entries(tokens.numbers(grid ** inputs * outputs, FULL))
    return stage_answer(Lattice(inputs, outputs, grid, nodes), tokens.colours())


# ---- Requests to a converter -----------------------------------------------------------------------------------------


def hash_of(data):
    """The 64-bit FNV-1a hash in hexadecimal digits."""
    value = 0xCBF29CE484222325
    for byte in data:
        value = (value ^ byte) * 0x100000001B3 & 0xFFFFFFFFFFFFFFFF
    return f"{value:016x}"


def table_hash(numbers):
    return hash_of(struct.pack(f">{len(numbers)}H", *numbers))


def read_row(tokens):
    """A row call's rows, the leaving one filled with the values that stand there before the call."""
    try:
        entering, leaving = PIXEL_KINDS[tokens.word()], PIXEL_KINDS[tokens.word()]
    except KeyError:
        raise Bad from None
    pixel_count, output_count = tokens.number(), tokens.number(LARGEST_LENGTH)
    samples = tokens.numbers(pixel_count * entering.channels, entering.largest)
    pixels = [samples[k:k + entering.channels] for k in range(0, len(samples), entering.channels)]
    starts = range(0, output_count * leaving.channels, leaving.channels)
    output = [[(3 * (start + k) + 1) % 256 for k in range(leaving.channels)] for start in starts]
    return Row(entering, leaving, pixels, output)


def read_call(tokens):
    """The letter of a call and its argument."""
    letter = tokens.word()
    if letter in ("T", "B", "F"):
        return letter, tokens.number()
    if letter == "W":
        return letter, tokens.number(LARGEST_LENGTH)
    if letter in ("R", "L"):
        return letter, read_row(tokens)
    if letter in ("Q", "D"):
        return letter, None
    raise Bad


class ConverterRun:
    """One converter with its table, answering calls one after the other."""

    def __init__(self, stage, numbers):
        self.converter = Converter(stage)
        self.table = NodeTable(numbers)
        self.hashed = table_hash(numbers)
        self.calls = {
            "T": self.lend, "B": self.begin, "F": self.fill, "R": self.row, "L": self.link_row,
            "Q": self.quote, "W": self.write, "D": self.drop,
        }

    def answer(self, call):
        """The call's letter and result, the converter's state, and the hash of the table."""
        letter, argument = call
        result = self.calls[letter](argument)
        if letter == "F":
            self.hashed = table_hash(self.table.numbers)
        return f"{letter} {result} | {self.converter.link} {self.hashed}"

    @staticmethod
    def result(method, *arguments):
        """What a call says if accepted, else the refusal's number."""
        try:
            return method(*arguments)
        except Refused as refused:
            return str(refused.number)

    def lend(self, length):
        self.table.lent = min(length, len(self.table.numbers))
        return "ok"

    def begin(self, grid):
        return self.result(self.converter.begin, grid, self.table) or "ok"

    def fill(self, budget):
        found = self.result(self.converter.fill, budget, self.table)
        return found if isinstance(found, str) else f"ok {found[0]} {found[1]}"

    def row(self, row):
        return self.row_result(self.result(self.converter.row, row), row)

    def link_row(self, row):
        return self.row_result(self.result(self.converter.link_row, row, self.table), row)

    @staticmethod
    def row_result(found, row):
        start = found if isinstance(found, str) else f"ok {found}"
        return " ".join([start, ":"] + [str(sample) for pixel in row.output for sample in pixel])

    def quote(self, _):
        error, of_link = self.converter.quote()
        return f"ok {error} {'-' if of_link is None else of_link}"

    def write(self, length):
        output = bytearray(b"\xA5" * length)
        found = self.result(self.converter.write, self.table, output)
        start = found if isinstance(found, str) else f"ok {found}"
        return f"{start} {hash_of(output)}"

    def drop(self, _):
        self.converter.drop()
        return "ok"


def answer_conv(tokens):
    profiles = tokens.profiles()
    length, seed = tokens.number(LARGEST_LENGTH), tokens.number()
    calls = []
    while tokens.more():
        calls.append(read_call(tokens))
    try:
        stage = open_chain(profiles)
    except ChainFault as chain_fault:
        return chain_fault_answer(chain_fault)
    run = ConverterRun(stage, [(seed + k * 40503) % 65536 for k in range(length)])
    return " ; ".join(run.answer(call) for call in calls)


ANSWERERS = {
    "run": answer_run, "chain": answer_chain, "curve": answer_curve, "matrix": answer_matrix,
    "lattice": answer_lattice, "conv": answer_conv,
}


def answer_line(line):
    """The answer to one line, given as bytes without its end."""
    try:
        tokens = Tokens(line.decode("ascii"))
        return ANSWERERS[tokens.word()](tokens)
    except (Bad, KeyError, UnicodeDecodeError):
        return "bad"


# ---- Command line ----------------------------------------------------------------------------------------------------

USAGE = "usage: second_engine.py check | answer | limits | cases [--short] SEED COUNT [run|chain|curve|matrix|lattice|conv ...]"


def run_answers():
    """Answers the lines of standard input."""
    for line in sys.stdin.buffer:
        print(answer_line(line[:-1] if line.endswith(b"\n") else line))
    return 0


def run_limits():
    """Prints the requests at the limits."""
    for line in limit_cases.lines():
        print(line)
    return 0


def run_cases(arguments):
    """Prints random requests, the kinds in turn."""
    short = "--short" in arguments
    seed, count, *kinds = [argument for argument in arguments if argument != "--short"]
    for line in random_cases.lines(whole(seed), whole(count), kinds or list(ANSWERERS), short):
        print(line)
    return 0


def main(arguments):
    """Runs one command; the exit status is 2 at wrong arguments."""
    if arguments == ["check"]:
        import second_engine_checks
        return second_engine_checks.run_checks()
    if arguments == ["answer"]:
        return run_answers()
    if arguments == ["limits"]:
        return run_limits()
    if arguments[:1] == ["cases"]:
        rest = [argument for argument in arguments[1:] if argument != "--short"]
        numbers = all(DIGITS.issuperset(argument) and argument for argument in rest[:2])
        if len(rest) >= 2 and numbers and all(kind in ANSWERERS for kind in rest[2:]):
            return run_cases(arguments[1:])
    print(USAGE, file=sys.stderr)
    return 2


if __name__ == "__main__":
    sys.exit(main(sys.argv[1:]))
