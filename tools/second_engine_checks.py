"""Checks of the second engine by itself: its quick sums against the literal means, its figures against some worked by hand, its
stages, links and rows against the laws that they are to keep.
"""

from __future__ import annotations

import random
import struct
from fractions import Fraction
from itertools import product

from second_engine import (
    FULL, GRAINS, HEADER_END, PIXEL_KINDS, RECORD_BYTES, SWING, TOP,
    Converter, ConverterRun, Curves, Entries, Fault, FillingLink, Lattice, Matrix, NodeTable, Row, Stage,
    answer_line, ceil_div, hash_of, joined_error, joined_from_left, link_error, nearest, open_profile, padded,
)


class Difference(Exception):
    """Two ways to the same result disagree."""


class Tally:
    """Counts comparisons and ends at the first that fails."""

    def __init__(self):
        self.count = 0

    def same(self, found, wanted, what):
        self.count += 1
        if found != wanted:
            raise Difference(f"{what}: found {found}, wanted {wanted}")

    def holds(self, condition, what):
        self.count += 1
        if not condition:
            raise Difference(what)


def values(exact):
    """The four values of an exact colour as fractions."""
    numerators, denominator = exact
    return tuple(Fraction(a, denominator) for a in numerators)


def random_entries(rng, count, largest=FULL):
    return Entries([rng.randrange(largest + 1) for _ in range(count)])


def random_numerators(rng, largest):
    """Four numerators, each now and then at an end of the range."""
    return tuple(rng.choice((0, largest)) if rng.randrange(5) == 0 else rng.randrange(largest + 1) for _ in range(4))


def check_small_curves(tally, rng):
    """All positions of curves, with a small number in place of the largest count."""
    for full, denominator, length in product(range(2, 13), (1, 2, 3), (2, 3, 4, 7)):
        curves = Curves([random_entries(rng, length, full) for _ in range(3)], full)
        for a in range(full * denominator + 1):
            place = (a, full * denominator - a, rng.randrange(full * denominator + 1), 0)
            found, wanted = values(curves.exact(place, denominator)), curves.literal(place, denominator)
            tally.same(found, wanted, f"curve mean, full {full}, {place} over {denominator}, {curves.steps} steps")


def small_places(rng, inputs, largest, most):
    """All positions of the in-channels if they are few, else random ones and the corners."""
    if (largest + 1) ** inputs <= most:
        return [padded(place) for place in product(range(largest + 1), repeat=inputs)]
    corners = [padded(place) for place in product((0, largest), repeat=inputs)]
    return corners + [random_numerators(rng, largest) for _ in range(most // 4)]


def check_small_lattices(tally, rng, inputs, fulls, most):
    """Many positions of lattices, with a small number in place of the largest count."""
    for full, denominator, grid in product(fulls, (1, 2, 3), (2, 3, 4)):
        outputs = rng.choice((1, 3, 4)) if inputs < 4 else 1
        nodes = random_entries(rng, grid ** inputs * outputs, full)
        lattice = Lattice(inputs, outputs, grid, nodes, full)
        for place in small_places(rng, inputs, full * denominator, most):
            found, wanted = values(lattice.exact(place, denominator)), lattice.literal(place, denominator)
            tally.same(found, wanted, f"lattice mean, full {full}, grid {grid}, {place} over {denominator}")


def check_real_means(tally, rng):
    """Some means at the real largest count, summed over all its samples."""
    for turn in range(16):
        length, colour = rng.choice((2, 3, 16, 256, 4096)), random_numerators(rng, FULL)
        curve = Curves([random_entries(rng, length)])
        tally.same(values(curve.exact(colour, 1)), curve.literal(colour, 1), f"curve mean of {colour}, {length} entries")
        inputs = 1 if turn % 4 == 0 else 3
        grid = rng.choice((2, 17, 255)) if inputs == 1 else rng.choice((2, 3, 5, 9))
        lattice = Lattice(inputs, 1, grid, random_entries(rng, grid ** inputs))
        tally.same(values(lattice.exact(colour, 1)), lattice.literal(colour, 1), f"lattice mean of {colour}, grid {grid}")


def check_real_pairs(tally, rng):
    """Four in-channels at the real largest count: the first channel's samples literally, the others' quickly."""
    for grid in (2, 2, 3, 4, 5):
        layer = grid ** 3
        nodes = random_entries(rng, grid * layer)
        layers = [Lattice(3, 1, grid, nodes.part(k * layer, layer)) for k in range(grid)]
        colour = random_numerators(rng, FULL)
        position = colour[0] * (grid - 1)
        total = Fraction(0)
        for u in range(FULL):
            numerators, denominator = layers[(position + u) // FULL].exact(colour[1:], 1)
            total += Fraction(numerators[0], denominator)
        found = values(Lattice(4, 1, grid, nodes).exact(colour, 1))[0]
        tally.same(found, total / FULL, f"mean over pairs of {colour}, grid {grid}")


def literal_jump(lattice):
    """The jump of a lattice again, node by node."""
    found = 0
    for output in range(lattice.outputs):
        total = 0
        for channel in range(lattice.inputs):
            largest = 0
            for node in product(range(lattice.grid), repeat=lattice.inputs):
                if node[channel] + 1 < lattice.grid:
                    upper = node[:channel] + (node[channel] + 1,) + node[channel + 1:]
                    a, b = (lattice.nodes.at(lattice.place(n) + output) for n in (node, upper))
                    largest = max(largest, abs(b - a))
            total += largest
        found = max(found, total)
    return found


def check_jumps(tally, rng):
    for inputs, outputs, grid in product((1, 3, 4), (1, 3, 4), (2, 3, 4)):
        lattice = Lattice(inputs, outputs, grid, random_entries(rng, grid ** inputs * outputs, rng.choice((3, FULL))))
        tally.same(lattice.jump(), literal_jump(lattice), f"jump of {inputs} in, {outputs} out, grid {grid}")
    extremes = Curves([Entries([0, FULL] * 2048)]), Lattice(4, 1, 2, Entries([0] * 8 + [FULL] * 8))
    tally.holds(all(stage.steepness < TOP for stage in extremes), "a curve or a lattice claims no steepness")
    tally.holds(ceil_div(GRAINS * 254 * 4 * FULL, FULL) < TOP, "the steepest lattice claims no steepness")


def check_figures(tally):
    """Figures that were worked out by hand."""
    curve = Curves([Entries([0, 1000, FULL])])
    tally.same(curve.answer((32767, 0, 0, 0)), (1000, 0, 0, 0), "curve below its middle")
    tally.same(curve.answer((32768, 0, 0, 0)), (1001, 0, 0, 0), "curve above its middle")
    tally.same(curve.steepness, 129_072, "curve steepness")
    counts = [0, 1000, 2000, 3000, 4000, 5000, 6000, 60000]
    cube = Lattice(3, 1, 2, Entries(counts))
    tally.same(cube.answer((52428, 39321, 13107, 0))[0], 15200, "cube, channels falling")
    tally.same(cube.answer((13107, 39321, 52428, 0))[0], 13400, "cube, channels rising")
    tally.same(cube.answer((39321, 39321, 39321, 0))[0], 36000, "cube, channels equal")
    tally.same(cube.steepness, 166_003, "cube steepness")
    four = Lattice(4, 1, 2, Entries(counts + [0] * 8))
    tally.same(four.answer((32768, 39321, 39321, 39321))[0], 18000, "four in-channels")
    tally.same(Matrix([32768, -65536, 0] * 3).answer((10001, 2000, 0, 0)), (3001, 3001, 3001, 0), "matrix, half upward")
    tally.same(Matrix([-65536, 0, 0] * 3).answer((5, 0, 0, 0)), (0, 0, 0, 0), "matrix held at 0")
    tally.same(joined_error(32768, 129_072, 32768), 97_304, "joined error")
    known = Stage()
    known.error, known.steepness = 98_304, 65_536
    tally.same(link_error(known, 33), 134_379_520, "link error, grid 33")
    tally.same(link_error(known, 2), SWING, "link error, grid 2")


def random_stage(rng):
    """A small curve, matrix or lattice stage."""
    kind = rng.randrange(3)
    if kind == 0:
        length = rng.randrange(2, 7)
        return Curves([random_entries(rng, length, rng.choice((9, 3000, FULL))) for _ in range(rng.choice((1, 3, 4)))])
    if kind == 1:
        unit, limit = rng.choice(((GRAINS, 3), (1, 2 * GRAINS), (1, 1 << 31)))
        return Matrix([unit * rng.randrange(-limit, limit) for _ in range(9)])
    inputs, outputs, grid = rng.choice((1, 3, 4)), rng.choice((1, 3, 4)), rng.randrange(2, 5)
    return Lattice(inputs, outputs, grid, random_entries(rng, grid ** inputs * outputs, rng.choice((9, 3000, FULL))))


def random_joined(rng):
    """One to three stages that fit together, joined from the left."""
    stages = [random_stage(rng)]
    for _ in range(rng.randrange(3)):
        following = random_stage(rng)
        if following.inputs == stages[-1].outputs:
            stages.append(following)
    return joined_from_left(stages)


def random_neighbour(rng, numerators, largest):
    """An exact colour near the one given."""
    reach = rng.choice((1, largest // 1000 + 1, largest // 5 + 1))
    return tuple(min(max(a + rng.randrange(-reach, reach + 1), 0), largest) for a in numerators)


def check_laws(tally, rng, stage):
    """Range, scaling, steepness and error of a stage at random places."""
    for _ in range(4):
        denominator, factor = rng.randrange(1, 8), rng.randrange(2, 6)
        place = random_numerators(rng, FULL * denominator)
        exact = stage.exact(place, denominator)
        tally.holds(all(0 <= a <= FULL * exact[1] for a in exact[0]), f"result out of range at {place}/{denominator}")
        tally.holds(not any(exact[0][stage.outputs:]), "a channel beyond the out-channels is not 0")
        scaled = stage.exact(tuple(a * factor for a in place), denominator * factor)
        tally.same(values(scaled), values(exact), f"scaling {place}/{denominator} by {factor}")
        other = random_neighbour(rng, place, FULL * denominator)
        differences = [abs(a - b) for a, b in zip(place[:stage.inputs], other)]
        reach = Fraction(max(differences), denominator) * stage.steepness
        moved = [GRAINS * abs(a - b) for a, b in zip(values(exact), values(stage.exact(other, denominator)))]
        tally.holds(stage.steepness == TOP or max(moved) <= reach, f"too steep between {place} and {other}")
        colour = random_numerators(rng, FULL)
        distances = [GRAINS * abs(a - b) for a, b in zip(values(stage.exact(colour, 1)), stage.answer(colour))]
        tally.holds(max(distances) <= stage.error, f"answer beyond the error at {colour}")


def check_kinds(tally):
    """What is made from a count lies within the error; what is made from a shown colour shows it again."""
    for kind in PIXEL_KINDS.values():
        for sample in range(kind.largest + 1):
            pixel = [sample] * kind.channels
            tally.same(kind.made(kind.shown(pixel)), pixel, f"pixel made from the shown {sample}")
        for count in range(FULL + 1):
            shown = kind.factor * kind.made((count,) * 4)[0]
            tally.holds(shown <= FULL and GRAINS * abs(shown - count) <= kind.error, f"count {count} shown as {shown}")


def kinds_of(channels):
    return [kind for kind in PIXEL_KINDS.values() if kind.channels == channels]


def check_row_bound(tally, rng, stage, row, bound):
    """Every leaving pixel lies within the bound of the exact map at the entering pixel's colour."""
    for pixel, made in zip(row.pixels, row.output):
        exact = values(stage.exact(row.entering.shown(pixel), 1))
        shown = row.leaving.shown(made)
        distances = [GRAINS * abs(a - b) for a, b in zip(exact[:stage.outputs], shown)]
        tally.holds(max(distances) <= bound, f"row pixel {pixel} became {made}, bound {bound}")


def random_row(rng, stage):
    entering, leaving = rng.choice(kinds_of(stage.inputs)), rng.choice(kinds_of(stage.outputs))
    pixels = [[rng.randrange(entering.largest + 1) for _ in range(entering.channels)] for _ in range(3)]
    return Row(entering, leaving, pixels, [[0] * leaving.channels for _ in pixels])


def wrapped(element, inputs, outputs):
    """A profile that holds nothing but the element."""
    spaces = {1: b"GRAY", 3: b"RGB ", 4: b"CMYK"}
    head = bytearray(144)
    head[16:24] = spaces[inputs] + spaces[outputs]
    head[36:40] = b"acsp"
    head[128:144] = struct.pack(">I4sII", 1, b"A2B0", 144, len(element))
    head[0:4] = struct.pack(">I", 144 + len(element))
    return bytes(head) + element


def check_converter(tally, rng):
    """A link filled in parts: the nodes, both kinds of rows within their bounds, and the written element opened."""
    stage = random_joined(rng)
    grid = rng.choice((2, 3) if stage.inputs < 4 else (2,))
    converter, table = Converter(stage), NodeTable([7] * (grid ** stage.inputs * stage.outputs + 2))
    converter.begin(grid, table)
    while isinstance(converter.link, FillingLink):
        converter.fill(rng.randrange(12), table)
    tally.same(table.numbers[-2:], [7, 7], "numbers behind the link")
    for node, indices in enumerate(product(range(grid), repeat=stage.inputs)):
        colour = padded([nearest(index * FULL, grid - 1) for index in indices])
        stored = table.numbers[node * stage.outputs:(node + 1) * stage.outputs]
        tally.same(padded(stored), stage.answer(colour), f"node {indices} of grid {grid}")
    for call in (converter.row, lambda row: converter.link_row(row, table)):
        row = random_row(rng, stage)
        bound = call(row)
        check_row_bound(tally, rng, stage, row, bound)
    output = bytearray(b"\xA5" * (len(table.numbers) * 2 + 100))
    length = converter.write(table, output)
    tally.holds(set(output[length:]) == {0xA5}, "bytes behind the written element changed")
    opened = open_profile(b"A2B0", wrapped(bytes(output[:length]), stage.inputs, stage.outputs)).stage
    lattice = Lattice(stage.inputs, stage.outputs, grid, Entries(table.numbers[:-2]))
    colour = random_numerators(rng, FULL)
    tally.same(opened.answer(colour), lattice.answer(colour), f"written element at {colour}")


def small_element(n, m):
    """A lut16 element from one channel to one channel."""
    head = b"mft2" + bytes(4) + bytes([1, 1, 2, 0]) + bytes(36) + struct.pack(">2H", n, m)
    return head + bytes(2 * (n + 2 + m))


def with_records(count):
    """A profile of that many records, the last of which names the element."""
    plain = wrapped(small_element(2, 2), 1, 1)
    end = HEADER_END + RECORD_BYTES * count
    records = bytes(RECORD_BYTES * (count - 1)) + struct.pack(">4sII", b"A2B0", end, len(plain) - 144)
    profile = bytearray(plain[:128] + struct.pack(">I", count) + records + plain[144:])
    profile[0:4] = struct.pack(">I", len(profile))
    return bytes(profile)


def opening_number(data):
    """0 if the profile opens, else its fault's number."""
    try:
        open_profile(b"A2B0", data)
        return 0
    except Fault as fault:
        return fault.number


def check_edges(tally):
    """The last accepted and the first refused of several numbers."""
    for count, wanted in ((1, 0), (64, 0), (65, 4)):
        tally.same(opening_number(with_records(count)), wanted, f"{count} records")
    for length, wanted in ((1, 11), (2, 0), (4096, 0), (4097, 11)):
        for n, m in ((length, 2), (2, length)):
            tally.same(opening_number(wrapped(small_element(n, m), 1, 1)), wanted, f"tables of {n} and {m} entries")
    for grid, wanted in ((1, "32"), (2, None), (33, None), (34, "32")):
        converter = Converter(Curves([Entries([0, FULL])]))
        found = ConverterRun.result(converter.begin, grid, NodeTable([0] * 64))
        tally.same(found, wanted, f"begin with grid {grid}")


def check_line(tally):
    """One request whose answer is known in full."""
    data = wrapped(small_element(2, 2), 1, 1).hex()
    tally.same(answer_line(f"run A2B0 {data} 1 9 9 9 9".encode()), "ok 1 1 0 32768 ; 0 0 0 0", "request run")
    tally.same(answer_line(b"run A2B0 - 0"), "fault 1 1 0", "request without bytes")
    tally.same(answer_line(b"run A2B0  - 0"), "bad", "request with two spaces")
    tally.same(hash_of(b"a"), "af63dc4c8601ec8c", "hash of one letter")


def repeated(group, times, maker=None):
    """A group of checks that runs several times, with a random stage each time if a maker is given."""
    def run(tally, rng):
        for _ in range(times):
            group(tally, rng, *([maker(rng)] if maker else []))
    return run


CHECKS = (
    ("figures worked by hand", lambda tally, rng: check_figures(tally)),
    ("edges of accepted numbers", lambda tally, rng: check_edges(tally)),
    ("known answers", lambda tally, rng: check_line(tally)),
    ("curve means, small", check_small_curves),
    ("lattice means, 1 in-channel, small", lambda t, rng: check_small_lattices(t, rng, 1, range(2, 13), 100)),
    ("lattice means, 3 in-channels, small", lambda t, rng: check_small_lattices(t, rng, 3, range(2, 13), 350)),
    ("lattice means, 4 in-channels, small", lambda t, rng: check_small_lattices(t, rng, 4, range(2, 8), 260)),
    ("means over all real samples", check_real_means),
    ("means over all real first samples of pairs", check_real_pairs),
    ("jumps node by node", check_jumps),
    ("laws of single stages", repeated(check_laws, 800, random_stage)),
    ("laws of joined stages", repeated(check_laws, 800, random_joined)),
    ("pixel kinds", lambda tally, rng: check_kinds(tally)),
    ("links and rows", repeated(check_converter, 400)),
)


def run_checks():
    """Runs all groups; the exit status is 1 at a difference."""
    for name, group in CHECKS:
        tally = Tally()
        try:
            group(tally, random.Random(f"check {name}"))
        except Difference as difference:
            print(f"{name}: DIFFERENCE after {tally.count} comparisons: {difference}")
            return 1
        print(f"{name}: {tally.count} comparisons")
    return 0
