"""Makes random request lines for a colour engine: runs, chains, single stages and converter calls.

The file holds, in this order: small random choices, the making of profiles, damage to profiles field by field, colours,
the calls of a converter, whole request lines, and lines that are no request. Everything follows from a whole number
as seed. With the short choice profiles and tables are kept smaller, so that a stored collection stays small.

Profiles come in three styles: usual, short (few entries, few records, little lut8) and small (even less lut8).
"""

from __future__ import annotations

import random
import struct
from dataclasses import dataclass
from itertools import product

FULL = 65_535  # the largest count
UNIT = 65_536  # one, in a matrix
SPACES = {b"GRAY": 1, b"RGB ": 3, b"CMYK": 4, b"Lab ": 3, b"XYZ ": 3}


def chance(rng, percent):
    """True in so many of a hundred cases."""
    return rng.randrange(100) < percent


def weighed(rng, *choices):
    """One of several (weight, value) pairs' values."""
    left = rng.randrange(sum(weight for weight, _ in choices))
    for weight, value in choices:
        if left < weight:
            return value
        left -= weight
    raise AssertionError("weights do not add up")


def junk(rng, length):
    return bytes(rng.randrange(256) for _ in range(length))


# ---- Tables and matrices ---------------------------------------------------------------------------------------------


def table(rng, length, largest=FULL):
    """Numbers from 0 to the largest: random, rising, constant, at the extremes, even steps, or nearly equal."""
    kind = weighed(rng, (28, "random"), (24, "rising"), (3, "constant"), (7, "extremes"), (28, "steps"), (10, "near"))
    if kind == "random":
        return [rng.randrange(largest + 1) for _ in range(length)]
    if kind == "rising":
        return sorted(rng.randrange(largest + 1) for _ in range(length))
    if kind == "constant":
        return [rng.choice((0, largest, rng.randrange(largest + 1)))] * length
    if kind == "extremes":
        return [rng.choice((0, largest)) for _ in range(length)]
    if kind == "steps":
        steps = [k * largest // max(length - 1, 1) for k in range(length)]
        return steps[::-1] if chance(rng, 20) else steps
    base, reach = rng.randrange(largest + 1), rng.choice((2, 4, max(largest // 50, 2)))
    return [min(base + rng.randrange(reach), largest) for _ in range(length)]


def tables(rng, count, length, largest=FULL):
    """Several tables of the same length, one after the other."""
    return [value for _ in range(count) for value in table(rng, length, largest)]


def node_values(rng, inputs, outputs, grid, largest=FULL):
    """Nodes of a lattice: one table for all, or sums of one table for each in-channel, which are smoother."""
    if chance(rng, 45):
        return table(rng, grid ** inputs * outputs, largest)
    parts = [[table(rng, grid, largest // inputs) for _ in range(inputs)] for _ in range(outputs)]
    indices = product(range(grid), repeat=inputs)
    return [sum(part[k] for part, k in zip(parts[o], index)) for index in indices for o in range(outputs)]


def coefficients(rng):
    """Nine matrix numbers from identity to the extremes."""
    kind = weighed(rng, (36, "identity"), (24, "usual"), (12, "whole"), (8, "extreme"), (4, "zero"), (16, "small"))
    if kind == "identity":
        return [UNIT if k % 4 == 0 else 0 for k in range(9)]
    if kind == "usual":
        return [rng.randrange(-UNIT, 2 * UNIT) for _ in range(9)]
    if kind == "whole":
        return [UNIT * rng.randrange(-2, 3) for _ in range(9)]
    if kind == "extreme":
        edges = (-(1 << 31), (1 << 31) - 1, -(1 << 31) + 1, 1 << 30, (1 << 30) - 1, -(1 << 30), 0, 1, -1, UNIT, -UNIT)
        return [rng.choice(edges) for _ in range(9)]
    if kind == "zero":
        return [rng.choice((0, 0, 0, 1, -1, UNIT)) for _ in range(9)]
    return [rng.randrange(-UNIT // 2, UNIT // 2 + 1) for _ in range(9)]


# ---- Profiles --------------------------------------------------------------------------------------------------------


@dataclass
class Shape:
    """What an element holds: its type, channels, grid, and lengths of input and output tables."""

    lut8: bool
    inputs: int
    outputs: int
    grid: int
    n: int
    m: int


@dataclass
class Draft:
    """A profile in the making, with the places of the wanted record and of the element."""

    tag: bytes
    shape: Shape
    data: bytearray
    record: int
    element: int
    length: int
    keep_length_field: bool = False

    def number(self, place):
        return int.from_bytes(self.data[place:place + 4], "big")

    def put(self, place, value):
        """Overwrites bytes, as far as they lie within the profile."""
        end = min(place + len(value), len(self.data))
        if place < end:
            self.data[place:end] = value[:end - place]

    def put_long(self, place, number):
        self.put(place, struct.pack(">I", number % (1 << 32)))

    def finished(self):
        """The bytes, with the length field set unless it was damaged."""
        if not self.keep_length_field:
            self.put_long(0, len(self.data))
        return bytes(self.data)


LUT8_PERCENT = {"usual": (35, 12), "short": (10, 3), "small": (6, 1)}  # with few channels, with many


def random_grid(rng, inputs, usual):
    if inputs == 1:
        return 255 if usual and chance(rng, 3) else rng.randrange(2, 10)
    if inputs == 3:
        return weighed(rng, (60, 2), (36, 3), (4 if usual else 0, 4))
    return 3 if usual and chance(rng, 12) else 2


def random_length(rng, usual):
    """The length of the tables of a lut16 element."""
    if usual and chance(rng, 1):
        return rng.choice((17, 256, 1024, 4095, 4096))
    return rng.randrange(2, 7 if usual else 5)


def random_shape(rng, inputs, outputs, style):
    """A shape for the channels; lut8 is rarer where its tables would be long."""
    usual = style == "usual"
    lut8 = chance(rng, LUT8_PERCENT[style][0 if inputs + outputs <= 4 else 1])
    n, m = (256, 256) if lut8 else (random_length(rng, usual), random_length(rng, usual))
    return Shape(lut8, inputs, outputs, random_grid(rng, inputs, usual), n, m)


def element_bytes(rng, shape):
    """An element with random contents and junk in its reserved bytes."""
    largest = 255 if shape.lut8 else FULL
    values = tables(rng, shape.inputs, shape.n, largest)
    values += node_values(rng, shape.inputs, shape.outputs, shape.grid, largest)
    values += tables(rng, shape.outputs, shape.m, largest)
    head = b"mft1" if shape.lut8 else b"mft2"
    head += junk(rng, 4) + bytes([shape.inputs, shape.outputs, shape.grid]) + junk(rng, 1)
    head += struct.pack(">9i", *coefficients(rng))
    if shape.lut8:
        return head + bytes(values)
    return head + struct.pack(f">2H{len(values)}H", shape.n, shape.m, *values)


def other_record(rng, tag, behind):
    """A record that must not matter; the wanted signature itself may only stand behind the wanted record."""
    names = [b"desc", b"A2B1", b"a2b0", b"A2B\0", b"\0A2B", b"B2A1", junk(rng, 4), b"B2A0" if tag == b"A2B0" else b"A2B0"]
    if behind:
        names += [tag, tag, tag]
    return rng.choice(names) + rng.choice((junk(rng, 8), bytes(8), b"\xff" * 8, struct.pack(">2I", 200, 60)))


def directory(rng, tag, usual):
    """The records as a list, and the index of the wanted one, which is still open."""
    if usual and chance(rng, 2):
        count = rng.choice((63, 64, 64, 65))
        before = rng.choice((0, count - 1, rng.randrange(count)))
        behind = count - 1 - before
    else:
        before, behind = (weighed(rng, (70, 0), (20, 1), (7, 2), (3, 3)) for _ in range(2))
    front = [other_record(rng, tag, False) for _ in range(before)]
    return front + [None] + [other_record(rng, tag, True) for _ in range(behind)], before


def draft_profile(rng, source, target, style):
    """A valid profile (but for its length field) from a space to a space, under a random tag."""
    tag = rng.choice((b"A2B0", b"B2A0"))
    shape = random_shape(rng, SPACES[source], SPACES[target], style)
    body = element_bytes(rng, shape)
    records, index = directory(rng, tag, style == "usual")
    end = 132 + 12 * len(records)
    place = end + weighed(rng, (50, 0), (50, rng.randrange(6)))
    length = len(body) + weighed(rng, (55, 0), (45, rng.randrange(8)))
    records[index] = tag + struct.pack(">2I", place, length)
    header = bytearray(bytes(128) if chance(rng, 60) else junk(rng, 128))
    header[16:24] = source + target if tag == b"A2B0" else target + source
    header[36:40] = b"acsp"
    tail = junk(rng, length - len(body) + weighed(rng, (60, 0), (40, rng.randrange(6))))
    data = bytes(header) + struct.pack(">I", len(records)) + b"".join(records) + junk(rng, place - end) + body + tail
    return Draft(tag, shape, bytearray(data), 132 + 12 * index, place, len(body))


# ---- Damage ----------------------------------------------------------------------------------------------------------


def damage_length_field(rng, draft):
    size = len(draft.data)
    draft.put_long(0, rng.choice((size - 1, size + 1, 0, 1 << 31, (1 << 32) - 1, size << 8, size + 65536)))
    draft.keep_length_field = True


def damage_end(rng, draft):
    """The file is cut or grows while its length field stays."""
    draft.put_long(0, len(draft.data))
    draft.keep_length_field = True
    if chance(rng, 50):
        del draft.data[len(draft.data) - rng.choice((1, 2, rng.randrange(1, len(draft.data) + 1))):]
    else:
        draft.data += junk(rng, rng.randrange(1, 5))


def damage_cut(rng, draft):
    """The file ends early and its length field says so."""
    ends = [131, 132, 133, rng.randrange(132), rng.randrange(4), draft.record + 11, draft.record + 12, draft.element,
            draft.element + 51, draft.element + 52, len(draft.data) - 1, rng.randrange(len(draft.data))]
    del draft.data[rng.choice(ends):]


def damage_mark(rng, draft):
    place = rng.randrange(36, 40)
    if place < len(draft.data):
        draft.data[place] = rng.choice((0, draft.data[place] ^ 0x20, rng.randrange(256)))


def damage_spaces(rng, draft):
    """Unknown spaces, at one place or at both."""
    names = (b"rgb ", b"RGB\0", b"CMY ", b"Luv ", b"GRAY"[::-1], b"\0\0\0\0", b"XYZ\x7f", b"lab ", b"GRA\0", junk(rng, 4))
    for place in rng.choice(((16,), (20,), (16, 20))):
        draft.put(place, rng.choice(names))


def damage_known_spaces(rng, draft):
    """Known spaces that need not be those of the element."""
    for place in rng.choice(((16,), (20,), (16, 20))):
        draft.put(place, rng.choice(tuple(SPACES)))


def damage_count(rng, draft):
    count = draft.number(128)
    fitting = (len(draft.data) - 132) // 12
    draft.put_long(128, rng.choice((
        0, count - 1, count + 1, 64, 65, (1 << 32) - 1, 1 << 16, 0x15555556, fitting, fitting + 1, fitting + 1,
    )))


def damage_signature(rng, draft):
    wrong = bytearray(draft.tag)
    wrong[rng.randrange(4)] ^= rng.choice((1, 0x20, 0x80))
    draft.put(draft.record, rng.choice((bytes(wrong), b"desc", b"B2A0" if draft.tag == b"A2B0" else b"A2B0")))


def damage_offset(rng, draft):
    end, file_end, size = 132 + 12 * draft.number(128), len(draft.data), draft.number(draft.record + 8)
    draft.put_long(draft.record + 4, rng.choice((
        end, end - 1, end - 1, 0, 131, draft.element + 1, file_end - size, file_end - size + 1, file_end, file_end + 1,
        (1 << 32) - 1, (1 << 32) - size, (1 << 32) - size + draft.element,
    )))


def damage_size(rng, draft):
    place, file_end = draft.number(draft.record + 4), len(draft.data)
    draft.put_long(draft.record + 8, rng.choice((
        51, 51, 52, 53, 0, draft.length, draft.length - 1, draft.length - 1, file_end - place, file_end - place + 1,
        file_end - place + 1, (1 << 32) - place, (1 << 32) - place + draft.length, (1 << 32) - 1,
    )))


def damage_empty_end(rng, draft):
    """An element of few or no bytes at the very end of the file."""
    size = rng.choice((0, 0, 1, 51, 52))
    draft.put(draft.record + 4, struct.pack(">2I", max(len(draft.data) - size, 0), size))


def damage_type(rng, draft):
    wrong = bytearray(b"mft1" if draft.shape.lut8 else b"mft2")
    wrong[rng.randrange(4)] ^= rng.choice((1, 0x20, 0x80))
    swapped = b"mft2" if draft.shape.lut8 else b"mft1"
    draft.put(draft.element, rng.choice((bytes(wrong), bytes(wrong), swapped, b"mft0", b"mft3", b"mAB ", junk(rng, 4))))


def damage_channels(rng, draft):
    """Wrong channel counts at one place or at both."""
    for place in rng.choice(((8,), (9,), (8, 9))):
        draft.put(draft.element + place, bytes([rng.choice((0, 1, 2, 3, 4, 5, 255, rng.randrange(256)))]))


def damage_grid(rng, draft):
    grid = draft.shape.grid
    draft.put(draft.element + 10, bytes([rng.choice((0, 1, 0, 1, 2, 255, (grid + 1) % 256, grid - 1))]))


def damage_entries(rng, draft):
    """Wrong table lengths at one place or at both."""
    for place in rng.choice(((48,), (50,), (48, 50))):
        number = rng.choice((0, 1, 2, 4096, 4097, 65535, 0x8000, draft.shape.n + 1, draft.shape.m - 1))
        draft.put(draft.element + place, struct.pack(">H", number % 65536))


def damage_bytes(rng, draft):
    for _ in range(rng.randrange(1, 6)):
        if draft.data:
            draft.data[rng.randrange(len(draft.data))] = rng.randrange(256)


def damage_first_record(rng, draft):
    """A record of the wanted signature in front of the right one, if one stands there."""
    if draft.record > 132:
        draft.put(132, draft.tag + rng.choice((junk(rng, 8), bytes(8), struct.pack(">2I", draft.element, 51))))


DAMAGES = (
    (4, damage_length_field), (3, damage_end), (7, damage_cut), (7, damage_mark), (11, damage_spaces),
    (5, damage_known_spaces), (10, damage_count), (6, damage_signature), (9, damage_offset), (14, damage_size),
    (3, damage_empty_end), (8, damage_type), (14, damage_channels), (11, damage_grid), (19, damage_entries),
    (3, damage_bytes), (4, damage_first_record),
)
ELEMENT_DAMAGES = (
    (2, damage_size), (2, damage_type), (3, damage_channels), (3, damage_grid), (3, damage_entries),
    (1, damage_known_spaces),
)


def damaged(rng, draft):
    """The draft with one damage, or with several at once, so that the order of checks matters."""
    if chance(rng, 15):
        chosen = [weighed(rng, *ELEMENT_DAMAGES) for _ in range(rng.randrange(2, 4))]
    else:
        chosen = [weighed(rng, *DAMAGES) for _ in range(weighed(rng, (70, 1), (18, 2), (12, 3)))]
    for damage in chosen:
        if draft.data:
            damage(rng, draft)
    return draft


def random_space(rng):
    """A space; gray somewhat more often, as its profiles are short."""
    return rng.choice((b"GRAY", b"GRAY", b"RGB ", b"CMYK", b"Lab ", b"XYZ "))


def hex_of(data):
    return data.hex() or "-"


def profile_tokens(draft):
    return [draft.tag.decode(), hex_of(draft.finished())]


# ---- Colours ---------------------------------------------------------------------------------------------------------

EDGES = (0, 1, 32767, 32768, 65534, 65535)


def near_step(rng, steps):
    """The count at one of the steps of a grid or table, or one beside it."""
    at = (2 * rng.randrange(steps + 1) * FULL + steps) // (2 * steps)
    return min(max(at + rng.randrange(-1, 2), 0), FULL)


def colour(rng, steps):
    """Four counts; steps tells how many steps lie between the nodes that matter."""
    kind = weighed(rng, (35, "random"), (20, "edges"), (12, "equal"), (23, "steps"), (10, "mixed"))
    if kind == "random":
        return [rng.randrange(FULL + 1) for _ in range(4)]
    if kind == "edges":
        return [rng.choice(EDGES) for _ in range(4)]
    if kind == "equal":
        return [rng.choice((rng.randrange(FULL + 1), rng.choice(EDGES)))] * 4
    if kind == "steps":
        return [near_step(rng, steps) for _ in range(4)]
    return [rng.choice((rng.randrange(FULL + 1), rng.choice(EDGES), near_step(rng, steps))) for _ in range(4)]


def colours(rng, count, steps):
    """The tokens of so many colours, their count first."""
    return [count] + [value for _ in range(count) for value in colour(rng, max(steps, 1))]


def steps_of(rng, shape):
    return rng.choice((shape.grid - 1, shape.n - 1, 255))


# ---- Calls of a converter --------------------------------------------------------------------------------------------

FITTING_KINDS = {1: ("g8",), 3: ("r8", "r8", "r16"), 4: ("c8",)}
KIND_CHANNELS = {"g8": 1, "r8": 3, "c8": 4, "r16": 3}
NEXT_CALL = {
    "empty": ((54, "B"), (6, "F"), (13, "R"), (7, "L"), (5, "Q"), (6, "W"), (2, "D"), (7, "T")),
    "filling": ((50, "F"), (8, "B"), (8, "R"), (8, "L"), (6, "Q"), (7, "W"), (3, "D"), (10, "T")),
    "full": ((30, "L"), (22, "W"), (10, "R"), (8, "F"), (8, "Q"), (8, "B"), (3, "D"), (11, "T")),
}


class CallMaker:
    """Makes calls while following, roughly, what a converter would do, so that later calls are of use."""

    def __init__(self, rng, inputs, outputs):
        self.rng, self.inputs, self.outputs = rng, inputs, outputs
        self.grid = self.planned_grid()
        self.table = self.table_length()
        self.lent = self.table
        self.state, self.begun, self.missing = "empty", self.grid, 0

    def planned_grid(self):
        if self.inputs == 1:
            return weighed(self.rng, (50, self.rng.randrange(2, 6)), (40, self.rng.randrange(2, 34)), (10, 33))
        if self.inputs == 3:
            return 2 if chance(self.rng, 70) else 3
        return 2 if chance(self.rng, 96) else 3

    def needed(self, grid):
        return grid ** self.inputs * self.outputs

    def table_length(self):
        need = self.needed(self.grid)
        more = need + self.rng.randrange(1, 6)
        return weighed(self.rng, (45, need), (40, more), (7, need - 1), (3, 0), (5, self.rng.randrange(2 * need)))

    def calls(self, count):
        """The tokens of so many calls."""
        tokens = []
        for _ in range(count):
            letter = weighed(self.rng, *NEXT_CALL[self.state])
            if self.lent < self.needed(self.grid) <= self.table and chance(self.rng, 35):
                letter = "T"
            tokens += [letter] + self.arguments(letter)
        return tokens

    def arguments(self, letter):
        makers = {"T": self.lend, "B": self.begin, "F": self.fill, "R": self.row, "L": self.row, "W": self.write}
        if letter == "D":
            self.state = "empty"
        return makers[letter]() if letter in makers else []

    def lend(self):
        need = self.needed(self.begun)
        if self.lent < self.table and chance(self.rng, 70):
            length = self.rng.choice((self.table, self.table, need, self.table + 7, (1 << 64) - 1))
        else:
            length = self.rng.choice((need, need - 1, need - 1, 0, self.rng.randrange(self.table + 1), self.table))
        self.lent = min(length, self.table)
        return [length]

    def begin(self):
        odd = self.rng.choice((0, 1, 2, 3, 33, 34, 35, 255, 256, 258, 1 << 32, (1 << 32) + 2, (1 << 64) - 1))
        grid = weighed(self.rng, (72, self.grid), (8, self.rng.randrange(2, 8)), (20, odd))
        if 2 <= grid <= 33 and self.needed(grid) <= self.lent:
            self.state, self.begun, self.missing = "filling", grid, grid ** self.inputs
        return [grid]

    def fill(self):
        part = self.rng.randrange(self.missing + 1)
        exact = self.missing
        budget = weighed(self.rng, (8, 0), (17, 1), (35, part), (15, exact), (10, exact + 1), (15, 1 << 40))
        if self.state == "filling" and self.needed(self.begun) <= self.lent:
            self.missing -= min(budget, self.missing)
            self.state = "filling" if self.missing else "full"
        return [budget]

    def kind(self, channels):
        return self.rng.choice(FITTING_KINDS[channels] if chance(self.rng, 91) else tuple(KIND_CHANNELS))

    def row(self):
        entering, leaving = self.kind(self.inputs), self.kind(self.outputs)
        pixels = weighed(self.rng, (8, 0), (40, 1), (32, 2), (20, self.rng.randrange(3, 6)))
        leaving_pixels = pixels if chance(self.rng, 88) else max(0, pixels + self.rng.choice((-1, 1, 2)))
        samples = [self.sample(entering) for _ in range(pixels * KIND_CHANNELS[entering])]
        return [entering, leaving, pixels, leaving_pixels] + samples

    def sample(self, kind):
        if kind == "r16":
            return wide_sample(self.rng, self.grid)
        return self.rng.choice((0, 1, 127, 128, 254, 255)) if chance(self.rng, 30) else self.rng.randrange(256)

    def write(self):
        exact = 52 + 4 * self.inputs + 2 * self.needed(self.begun) + 4 * self.outputs
        more = exact + self.rng.randrange(1, 9)
        return [weighed(self.rng, (38, exact), (28, more), (22, exact - 1), (7, 0), (5, self.rng.randrange(exact)))]


def wide_sample(rng, grid):
    """A count: random, at an edge or near a node."""
    return rng.choice((rng.randrange(FULL + 1), rng.choice(EDGES), near_step(rng, grid - 1)))


# ---- Lines -----------------------------------------------------------------------------------------------------------


def run_line(rng, short):
    kind = weighed(rng, (47, "valid"), (48, "damaged"), (3, "junk"), (2, "none"))
    draft = draft_profile(rng, random_space(rng), random_space(rng), "short" if short else "usual")
    if kind == "damaged":
        damaged(rng, draft)
    elif kind == "junk":
        draft.data, draft.keep_length_field = bytearray(junk(rng, rng.randrange(1, 200))), chance(rng, 50)
    elif kind == "none":
        draft.data = bytearray()
    count = rng.randrange(0, 3) if kind != "valid" else rng.randrange(1, 4 if short else 6)
    return ["run"] + profile_tokens(draft) + colours(rng, count, steps_of(rng, draft.shape))


def chain_drafts(rng, count, short):
    """Profiles that mostly fit each other; some misfits and some damage, also both."""
    trouble = weighed(rng, (66, ()), (14, ("misfit",)), (14, ("damage",)), (6, ("misfit", "damage")))
    misfit = rng.randrange(1, count) if count > 1 and "misfit" in trouble else None
    harmed = rng.randrange(count) if "damage" in trouble else None
    source, drafts = random_space(rng), []
    for position in range(count):
        if position == misfit:
            source = rng.choice([space for space in SPACES if space != source])
        target = random_space(rng)
        drafts.append(draft_profile(rng, source, target, "short" if short or chance(rng, 70) else "usual"))
        source = target
    if harmed is not None:
        damaged(rng, drafts[harmed])
    return drafts


def chain_line(rng, short):
    count = weighed(rng, (15, 1), (45, 2), (27, 3), (13, 4))
    drafts = chain_drafts(rng, count, short)
    tokens = [token for draft in drafts for token in profile_tokens(draft)]
    return ["chain", count] + tokens + colours(rng, rng.randrange(4 if short else 6), steps_of(rng, drafts[0].shape))


def curve_line(rng, short):
    channels = rng.choice((1, 3, 4))
    if short or chance(rng, 95):
        length = rng.randrange(2, 7 if short else 17)
    else:
        channels, length = 1, rng.choice((255, 256, 257, 1000)) if chance(rng, 90) else rng.choice((4095, 4096))
    entries = tables(rng, channels, length)
    return ["curve", channels, length] + entries + colours(rng, rng.randrange(1, 8), length - 1)


def matrix_line(rng, _):
    return ["matrix"] + coefficients(rng) + colours(rng, rng.randrange(1, 8), rng.choice((2, 3, 255)))


def lattice_line(rng, short):
    inputs, outputs = rng.choice((1, 3, 4)), rng.choice((1, 3, 4))
    grid = random_grid(rng, inputs, not short)
    if inputs == 3 and not short and chance(rng, 2):
        outputs, grid = 1, rng.randrange(5, 8)
    entries = node_values(rng, inputs, outputs, grid)
    return ["lattice", inputs, outputs, grid] + entries + colours(rng, rng.randrange(1, 8), grid - 1)


def conv_line(rng, short):
    count = 1 if chance(rng, 70) else 2
    spaces = [random_space(rng) for _ in range(count + 1)]
    pairs = list(zip(spaces, spaces[1:]))
    if chance(rng, 5):
        pairs[-1] = random_space(rng), spaces[-1]
    drafts = [draft_profile(rng, *pair, "small") for pair in pairs]
    if chance(rng, 5):
        damaged(rng, rng.choice(drafts))
    maker = CallMaker(rng, SPACES[spaces[0]], SPACES[spaces[-1]])
    tokens = [token for draft in drafts for token in profile_tokens(draft)]
    seed = rng.choice((0, 1, rng.randrange(65536), rng.randrange(1 << 64)))
    calls = maker.calls(0 if chance(rng, 1) else rng.randrange(3, 16 if short else 26))
    return ["conv", count] + tokens + [maker.table, seed] + calls


LINE_MAKERS = {
    "run": run_line, "chain": chain_line, "curve": curve_line, "matrix": matrix_line, "lattice": lattice_line,
    "conv": conv_line,
}


# ---- Lines that are no request ---------------------------------------------------------------------------------------

WRONG_TOKENS = (
    "", "x", "-1", "+1", "1.5", "0x1", "65536", "99999999999999999999", "18446744073709551616", "abc", "0", "-", "1,",
    "A2B1", "a2b0", "--1", "\t1",
)


def without_token(rng, tokens):
    del tokens[rng.choice((len(tokens) - 1, rng.randrange(len(tokens))))]


def with_trailing_token(rng, tokens):
    tokens.append(rng.choice(("0", "1", "", "x", "Q", "T", "W", "-")))


def with_empty_token(rng, tokens):
    tokens.insert(rng.randrange(len(tokens) + 1), "")


def with_wrong_word(rng, tokens):
    tokens[0] = rng.choice((tokens[0].upper(), tokens[0] + "s", tokens[0][:-1], "", "quit", "Run"))


def with_wrong_token(rng, tokens):
    tokens[rng.randrange(len(tokens))] = rng.choice(WRONG_TOKENS)


def with_odd_hex(rng, tokens):
    """One hexadecimal digit less, or a letter that is none; without a profile some token changes."""
    long = [k for k, token in enumerate(tokens) if len(token) > 100]
    place = rng.choice(long or [len(tokens) - 1])
    tokens[place] = rng.choice((tokens[place][:-1], tokens[place][:-1] + "g"))


def with_only_front(rng, tokens):
    del tokens[rng.randrange(1, len(tokens)):]


SPOILERS = (
    without_token, with_trailing_token, with_empty_token, with_wrong_word, with_wrong_token, with_odd_hex, with_only_front,
)


def dressed(rng, tokens):
    """The same request, with leading zeros or with other letter case in hexadecimal digits now and then."""
    if chance(rng, 3):
        place = rng.randrange(1, len(tokens))
        if tokens[place].isdigit() and len(tokens[place]) < 21:
            tokens[place] = "00" + tokens[place]
    if chance(rng, 3):
        tokens = [token.upper() if len(token) > 100 else token for token in tokens]
    return tokens


def line(rng, kind, short):
    """One line of a kind; about one of fifty is no request."""
    tokens = dressed(rng, [str(token) for token in LINE_MAKERS[kind](rng, short)])
    if chance(rng, 2):
        rng.choice(SPOILERS)(rng, tokens)
    return " ".join(tokens)


def lines(seed, count, kinds, short):
    """So many lines of each kind, the kinds in turn; every kind has its own random numbers."""
    sources = [(kind, random.Random(f"{kind} {seed}")) for kind in kinds]
    for _ in range(count):
        for kind, rng in sources:
            yield line(rng, kind, short)
