#!/usr/bin/env python3
"""Writes the small profiles and pictures that the repository ships, so that nobody has to find some to try the engine:

    tools/make_samples.py [FOLDER]           into the folder, or where they are shipped
    tools/make_samples.py --check [FOLDER]   says whether the files there are what would be written

They are shipped in samples/. The stored runs of the programs read copies in the folders of their crates, since the gate runs a
program beside its own files and refuses links among them: so the copies are written and checked by this script too.

Each profile has what the engine looks at of an ICC version 2 profile, with its numbers by rule and no device behind it: an
RGB device and Lab, both ways, by lut16s, one with a matrix that counts; a CMYK device and Lab, both ways, by lut16s; an RGB
device to XYZ by a lut8; and a gray device to Lab by a lut8. The pictures are a chart of hues (PPM, 8 bits), ramps of red,
green, blue and gray (PPM, 16 bits) and a wedge of grays (PGM, 8 bits).
"""
import struct
import sys
from pathlib import Path

FULL = 65535
TOP = Path(__file__).resolve().parent.parent
SHIPPED = TOP / "samples"
COPIES = {
    TOP / "crates" / "jobs" / "data": ["rgb.icc", "cmyk.icc", "small-rgb.icc", "gray.icc"],
    TOP / "crates" / "kiosk" / "data": ["rgb.icc", "cmyk.icc", "hues.ppm"],
}


def element16(ins, outs, grid, matrix, inputs, nodes, outputs):
    """A lut16: tables are lists of counts, one for each channel, and nodes a list of counts."""
    head = b"mft2" + bytes(4) + bytes([ins, outs, grid, 0]) + struct.pack(">9i", *matrix)
    head += struct.pack(">2H", len(inputs[0]), len(outputs[0]))
    counts = [c for table in inputs for c in table] + nodes + [c for table in outputs for c in table]
    return head + struct.pack(">%dH" % len(counts), *counts)


def element8(ins, outs, grid, matrix, inputs, nodes, outputs):
    """A lut8: the same with bytes, and 256 entries in each table."""
    head = b"mft1" + bytes(4) + bytes([ins, outs, grid, 0]) + struct.pack(">9i", *matrix)
    return head + bytes(b for table in inputs for b in table) + bytes(nodes) + bytes(b for table in outputs for b in table)


def profile(colour, other, elements):
    """A profile with the named elements, each at the next multiple of four."""
    at = 132 + 12 * len(elements)
    records, body = b"", b""
    for signature, element in elements:
        body += bytes(-(at + len(body)) % 4)
        records += signature + struct.pack(">2I", at + len(body), len(element))
        body += element
    length = at + len(body)
    header = bytearray(128)
    header[0:4] = struct.pack(">I", length)
    header[8:12] = bytes.fromhex("02400000")
    header[16:20], header[20:24], header[36:40] = colour, other, b"acsp"
    return bytes(header) + struct.pack(">I", len(elements)) + records + body


def indices(ins, grid):
    """The indices of the nodes in their order: the last channel moves on first."""
    nodes = [()]
    for _ in range(ins):
        nodes = [node + (i,) for node in nodes for i in range(grid)]
    return nodes


def curve(entries, bend, full):
    """A table that rises from 0 to `full`, below a straight line where `bend` is positive."""
    last = entries - 1
    return [(full * i * (last + bend * i)) // (last * last * (1 + bend)) for i in range(entries)]


def lattice(ins, outs, grid, value):
    """The nodes, with the outputs of each side by side: `value` gives them from the indices."""
    return [count for node in indices(ins, grid) for count in value(*node)]


IDENTITY = [65536, 0, 0, 0, 65536, 0, 0, 0, 65536]
# most of each channel, and a little of the others
MIXED = [55000, 7000, 3536, 4000, 58000, 3536, 2000, 6000, 57536]


def rgb_to_lab(grid, full):
    """Nodes of a made-up map from red, green and blue: lightness, and the two differences around the middle."""
    last = grid - 1

    def value(r, g, b):
        lightness = full * (2 * r + 5 * g + b) // (8 * last)
        first = full * (last + r - g) // (2 * last)
        second = full * (2 * last + r + g - 2 * b) // (4 * last)
        return lightness, first, second

    return lattice(3, 3, grid, value)


def lab_to_cmyk(grid, full):
    """Nodes of a made-up map to inks: dark colours take all four, and the differences move cyan, magenta and yellow."""
    last = grid - 1

    def value(l, a, b):
        dark = last - l
        inks = (dark + (last - 2 * a) // 2, dark + (2 * a - last) // 2, dark + (2 * b - last) // 2)
        held = [min(last, max(0, ink)) for ink in inks]
        return [full * ink // last for ink in held] + [full * dark * dark // (last * last)]

    return lattice(3, 4, grid, value)


def rgb():
    inputs = [curve(16, bend, FULL) for bend in (1, 2, 1)]
    outputs = [curve(5, bend, FULL) for bend in (0, 0, 1)]
    a2b = element16(3, 3, 5, MIXED, inputs, rgb_to_lab(5, FULL), outputs)
    # back from Lab: the same lattice again, which is no inverse, but a second element of another grid
    b2a = element16(3, 3, 3, IDENTITY, [curve(2, 0, FULL)] * 3, rgb_to_lab(3, FULL), [curve(4, 1, FULL)] * 3)
    return profile(b"RGB ", b"Lab ", [(b"A2B0", a2b), (b"B2A0", b2a)])


def cmyk():
    b2a = element16(3, 4, 5, IDENTITY, [curve(9, 0, FULL)] * 3, lab_to_cmyk(5, FULL), [curve(6, bend, FULL) for bend in (1, 1, 2, 3)])
    inks = lattice(4, 3, 3, lambda c, m, y, k: [FULL * (8 - 2 * v - 2 * k) // 8 for v in (c, m, y)])
    a2b = element16(4, 3, 3, IDENTITY, [curve(3, 0, FULL)] * 4, inks, [curve(2, 0, FULL)] * 3)
    return profile(b"CMYK", b"Lab ", [(b"A2B0", a2b), (b"B2A0", b2a)])


def small_rgb():
    inputs = [curve(256, bend, 255) for bend in (1, 1, 2)]
    nodes = rgb_to_lab(4, 255)
    return profile(b"RGB ", b"XYZ ", [(b"A2B0", element8(3, 3, 4, MIXED, inputs, nodes, [curve(256, 0, 255)] * 3))])


def gray():
    nodes = lattice(1, 3, 7, lambda i: (255 * i // 6, 128, 128))
    return profile(b"GRAY", b"Lab ", [(b"A2B0", element8(1, 3, 7, MIXED, [curve(256, 1, 255)], nodes, [curve(256, 0, 255)] * 3))])


def picture(magic, largest, rows):
    """A picture of samples from 0 to `largest`: one byte each, or two with the high one first where one is too few."""
    samples = [sample for row in rows for pixel in row for sample in pixel]
    head = b"%s\n%d %d\n%d\n" % (magic, len(rows[0]), len(rows), largest)
    return head + struct.pack(">%d%s" % (len(samples), "B" if largest < 256 else "H"), *samples)


def hue(sixth, step, of):
    """A full colour on the way round, `step` of `of` steps into a sixth of it."""
    up, down = 255 * step // of, 255 - 255 * step // of
    return [(255, up, 0), (down, 255, 0), (0, 255, up), (0, down, 255), (up, 0, 255), (255, 0, down)][sixth]


def hues():
    """Hues from left to right; from black at the top by the full colours to white at the bottom."""
    full = [hue(x // 4, x % 4, 4) for x in range(24)]
    dark = [[tuple(c * y // 8 for c in pixel) for pixel in full] for y in range(8)]
    light = [[tuple(255 - (255 - c) * (8 - y) // 8 for c in pixel) for pixel in full] for y in range(9)]
    return picture(b"P6", 255, dark + light)


def ramps():
    """A row each of red, green, blue and gray, which rise to the full count."""
    counts = [FULL * x // 32 for x in range(33)]
    rows = [[tuple(c if k == j else 0 for k in range(3)) for c in counts] for j in range(3)]
    return picture(b"P6", FULL, rows + [[(c, c, c) for c in counts]])


def wedge():
    """Sixteen grays, each four pixels wide and high."""
    return picture(b"P5", 255, [[(17 * (x // 4),) for x in range(64)]] * 4)


def samples():
    """The files by name."""
    return {
        "rgb.icc": rgb(),
        "cmyk.icc": cmyk(),
        "small-rgb.icc": small_rgb(),
        "gray.icc": gray(),
        "hues.ppm": hues(),
        "ramps.ppm": ramps(),
        "wedge.pgm": wedge(),
    }


def places(folder):
    """The path and the bytes of each file that is written into a folder, or of all that are shipped."""
    made = samples()
    if folder:
        return {Path(folder) / name: held for name, held in made.items()}
    shipped = {SHIPPED / name: held for name, held in made.items()}
    return shipped | {copied / name: made[name] for copied, names in COPIES.items() for name in names}


def main():
    words = sys.argv[1:]
    checking = words[:1] == ["--check"]
    files = places(*(words[1:] if checking else words)[:1] or [None])
    if checking:
        wrong = [str(path) for path, made in files.items() if not path.exists() or path.read_bytes() != made]
        if wrong:
            sys.exit("not as they would be written: " + ", ".join(wrong))
        return
    for path, made in files.items():
        path.write_bytes(made)


if __name__ == "__main__":
    main()
