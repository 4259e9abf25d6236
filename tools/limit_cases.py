"""Request lines at the limits of a colour engine, by rule and without chance: what is just accepted, what is just refused,
which of several causes counts, and the largest and smallest of the numbers that the engine works out.

The file holds, in this order: the making of lines, of elements and profiles, and of faults; then the groups of lines: file and
header, directory, element, single stages, chains, the converter, and lines that are no request or nearly none. A group consists
of small functions that yield lines; each says at which limit its lines stand. `GROUPS` at the end lists them all.
"""

from __future__ import annotations

import struct
from itertools import chain, combinations, permutations, product

from make_samples import IDENTITY, element8, element16, lattice
from random_cases import EDGES, FULL, KIND_CHANNELS, SPACES, UNIT, hex_of

GRAY, RGB, CMYK, LAB, XYZ = b"GRAY", b"RGB ", b"CMYK", b"Lab ", b"XYZ "
DEVICE = {1: GRAY, 3: RGB, 4: CMYK}  # one space for each number of channels
NUMBERS = (1, 3, 4)  # the numbers of channels
TAGS = (b"A2B0", b"B2A0")
RECORD, ELEMENT = 132, 144  # where the record and the element of a profile with one record stand
WORD_END, LONG_END, HUGE_END = 1 << 16, 1 << 32, 1 << 64  # behind the largest numbers of two, four and eight bytes
TOP = 1 << 30  # the steepness that claims nothing
JUNK = (12345, 54321, 40000, 777)  # a colour with something in each channel
SWAP = [0, 0, UNIT, 0, UNIT, 0, UNIT, 0, 0]  # the matrix that exchanges the first and the last of three channels


# ---- Lines -----------------------------------------------------------------------------------------------------------


def request(*tokens):
    return " ".join(map(str, tokens))


def colour_tokens(colours):
    """The count of colours, and the colours."""
    return [len(colours), *chain.from_iterable(colours)]


def in_first(counts):
    """Colours with the counts in the first channel, and something in the others."""
    return [(count, *JUNK[1:]) for count in counts]


def run_line(data, *colours, tag=b"A2B0"):
    return request("run", tag.decode(), hex_of(data), *colour_tokens(colours))


def profile_tokens(files, tags):
    """The count of profiles, and each with its tag; the tag is A2B0 if none are told."""
    tags = tags or [b"A2B0"] * len(files)
    return [len(files), *chain.from_iterable((tag.decode(), hex_of(data)) for tag, data in zip(tags, files))]


def chain_line(files, *colours, tags=None):
    return request("chain", *profile_tokens(files, tags), *colour_tokens(colours))


def curve_line(tables, *colours):
    return request("curve", len(tables), len(tables[0]), *chain.from_iterable(tables), *colour_tokens(colours))


def matrix_line(coefficients, *colours):
    return request("matrix", *coefficients, *colour_tokens(colours))


def lattice_line(ins, outs, grid, nodes, *colours):
    return request("lattice", ins, outs, grid, *nodes, *colour_tokens(colours))


def conv_line(files, table, *calls, seed=7):
    """Calls of a converter over a chain, with a table of so many numbers."""
    return request("conv", *profile_tokens(files, None), table, seed, *calls)


def row_of(letter, entering, leaving, samples, leaving_pixels=None):
    """A row call (R) or link row call (L); the leaving row is as long as the entering one if nothing else is told."""
    pixels = len(samples) // KIND_CHANNELS[entering]
    return request(letter, entering, leaving, pixels, pixels if leaving_pixels is None else leaving_pixels, *samples)


def row(letter, entering, leaving, pixels, leaving_pixels=None):
    """A row call over so many pixels, whose samples differ."""
    samples = [(50 * k + 9) % 256 for k in range(pixels * KIND_CHANNELS[entering])]
    return row_of(letter, entering, leaving, samples, leaving_pixels)


# ---- Elements and profiles -------------------------------------------------------------------------------------------


def word(number):
    return struct.pack(">H", number)


def long(number):
    return struct.pack(">I", number % LONG_END)


def changed(data, place, value):
    """The bytes with others put in their place."""
    return data[:place] + value + data[place + len(value):]


def flipped(name, letter, bits=0x20):
    """The four letters with one of them changed; the bits told here change its case."""
    return changed(name, letter, bytes([name[letter] ^ bits]))


def resized(data):
    """The file with its length told in its first four bytes."""
    return changed(data, 0, long(len(data)))


def scattered(count, start=7):
    """Counts that jump about the whole range."""
    return [(start + 40503 * k) % UNIT for k in range(count)]


def small16(ins, outs, grid=2, n=2, m=2, matrix=IDENTITY):
    """A lut16 with another table for each channel, and with nodes that jump about."""
    inputs = [scattered(n, 1000 + 7919 * k) for k in range(ins)]
    outputs = [scattered(m, 500 + 5003 * k) for k in range(outs)]
    return element16(ins, outs, grid, matrix, inputs, scattered(grid ** ins * outs), outputs)


def small8(ins, outs, grid=2, matrix=IDENTITY):
    """A lut8 of the same kind."""
    inputs = [[(89 * j + 31 * k) % 256 for j in range(256)] for k in range(ins)]
    outputs = [[(57 * j + 17 * k) % 256 for j in range(256)] for k in range(outs)]
    return element8(ins, outs, grid, matrix, inputs, [count >> 8 for count in scattered(grid ** ins * outs)], outputs)


def even16(ins, outs):
    """A lut16 whose nodes rise evenly; its curves change nothing."""
    count = 2 ** ins * outs
    nodes = [20000 + 40000 // (count - 1) * k for k in range(count)]
    return element16(ins, outs, 2, IDENTITY, [[0, FULL]] * ins, nodes, [[0, FULL]] * outs)


def straight16(ins, outs, matrix=IDENTITY, curve=(0, FULL)):
    """A lut16 that hands the in-channels on in turn, behind its matrix and one curve for all of them."""
    nodes = lattice(ins, outs, 2, lambda *index: [FULL * index[k % ins] for k in range(outs)])
    return element16(ins, outs, 2, matrix, [list(curve)] * ins, nodes, [[0, FULL]] * outs)


def profile(spaces, records, body=b""):
    """A profile of two spaces, records (signature, offset and size each), and what follows behind the records."""
    header = bytearray(128)
    header[16:24], header[36:40] = b"".join(spaces), b"acsp"
    listed = b"".join(signature + long(offset) + long(size) for signature, offset, size in records)
    return resized(bytes(header) + long(len(records)) + listed + body)


def holding(element, spaces=(GRAY, GRAY), tag=b"A2B0"):
    """A profile with one record; the element follows directly behind it."""
    return profile(spaces, [(tag, ELEMENT, len(element))], element)


def of_channels(make, ins, outs, *arguments, **named):
    """A profile between device spaces, with the element made for their channels."""
    return holding(make(ins, outs, *arguments, **named), (DEVICE[ins], DEVICE[outs]))


def among(count, at, offset=0, size=0):
    """A profile of so many records, all of which are unwanted but one; offset and size are told so much too large."""
    element, end = small16(1, 1), RECORD + 12 * count
    records = [(b"desc", 0, 0)] * count
    records[at] = b"A2B0", end + offset, len(element) + size
    return profile((GRAY, GRAY), records, element)


# ---- Faults of a profile ---------------------------------------------------------------------------------------------


def header_faults(data):
    """A change (place and bytes) for each check of the header, in their order: length, mark, both spaces."""
    return [(0, long(len(data) + 1)), (36, b"ACSP"), (16, b"gray"), (20, b"gray")]


def directory_faults():
    """The same for the directory of a profile with one record: count, signature, offset."""
    return [(128, long(65)), (RECORD, b"A2B1"), (RECORD + 4, long(ELEMENT - 1))]


def element_faults(data):
    """The same for its element: size, type, in- and out-channels, grid, lengths of tables (not of a lut8), tables."""
    small = [(RECORD + 8, long(51)), (ELEMENT, b"mft3")]
    small += [(ELEMENT + 8, b"\2"), (ELEMENT + 9, b"\5"), (ELEMENT + 10, b"\1")]
    if data[ELEMENT:ELEMENT + 4] == b"mft2":
        small += [(ELEMENT + 48, word(1)), (ELEMENT + 50, word(4097))]
    return small + [(RECORD + 8, long(len(data) - ELEMENT - 1))]


def all_faults(data):
    return header_faults(data) + directory_faults() + element_faults(data)


def faulty(data, changes):
    for place, value in changes:
        data = changed(data, place, value)
    return data


def twice_faulty(data, faults):
    """The profile with any two of the faults at once, unless they are told by the same bytes."""
    return [faulty(data, two) for two in combinations(faults, 2) if two[0][0] != two[1][0]]


# ---- File and header -------------------------------------------------------------------------------------------------


def file_lengths():
    """A file has 132 bytes at least; then its one record lies past its end until it has 144."""
    whole = of_channels(small16, 1, 1)
    for length in (0, 1, 3):
        yield run_line(whole[:length])
    for length in (4, 131, 132, 143, 144):
        yield run_line(resized(whole[:length]))
    yield run_line(profile((GRAY, GRAY), []))
    yield run_line(bytes(132))


def length_fields():
    """Bytes 0 to 3 tell the length of the file exactly, all four of them and the high one first."""
    whole = of_channels(small16, 1, 1)
    size = len(whole)
    for told in (size - 1, size, size + 1, 0, size + (1 << 16), size + (1 << 24), size + (1 << 31), LONG_END - 1):
        yield run_line(changed(whole, 0, long(told)), JUNK)
    yield run_line(changed(whole, 0, long(size)[::-1]))
    yield run_line(whole[:-1])
    yield run_line(whole + b"\0")


def marks():
    """Each letter of the mark counts."""
    whole = of_channels(small16, 1, 1)
    for letter, bits in product(range(4), (1, 0x20, 0x80)):
        yield run_line(changed(whole, 36, flipped(b"acsp", letter, bits)))
    for wrong in (b"psca", b"ACSP", bytes(4)):
        yield run_line(changed(whole, 36, wrong))
    yield run_line(changed(changed(whole, 36, bytes(4)), 35, b"acsp"))
    yield run_line(changed(changed(whole, 36, bytes(4)), 37, b"acsp"))


def space_pairs():
    """All pairs of spaces in both directions, with something in the channels beyond those of the first."""
    for tag, colour, other in product(TAGS, SPACES, SPACES):
        source, target = (colour, other) if tag == b"A2B0" else (other, colour)
        element = small16(SPACES[source], SPACES[target])
        yield run_line(holding(element, (colour, other), tag), JUNK, tag=tag)


def nearly_spaces():
    """Each letter of each space counts, at the colour space and at the other space."""
    for name, letter in product(SPACES, range(4)):
        wrong = flipped(name, letter)
        for spaces in ((wrong, name), (name, wrong)):
            yield run_line(holding(small16(SPACES[name], SPACES[name]), spaces))


def unknown_spaces():
    """Spaces that are not dealt with; the colour space is looked at first, whichever tag is wanted."""
    for name in (b"Luv ", b"YCbr", b"HSV ", b"CMY ", b"3CLR", b" BGR", bytes(4), b"\xff" * 4):
        yield run_line(holding(small16(3, 3), (name, RGB)))
        yield run_line(holding(small16(3, 3), (RGB, name)))
        yield run_line(holding(small16(3, 3), (name, name)))
    for spaces in ((b"Luv ", RGB), (RGB, b"Luv "), (b"Luv ", b"Luv ")):
        yield run_line(holding(small16(3, 3), spaces, b"B2A0"), tag=b"B2A0")


def two_header_faults():
    """Of two faults of the header the one that is checked first counts."""
    whole = of_channels(small16, 1, 1)
    for data in twice_faulty(whole, header_faults(whole)):
        yield run_line(data)


# ---- Directory -------------------------------------------------------------------------------------------------------


def record_counts():
    """From 0 to 64 records, which must lie within the file, also where 12 times their number passes 2^32."""
    for count in (1, 2, 64, 65):
        yield run_line(among(count, count - 1), JUNK)
    whole = of_channels(small16, 1, 1)
    for told in (0, 2, 64, 65, 1 << 8, 1 << 16, 1 << 24, 0x15555556, 1 << 31, LONG_END - 1):
        yield run_line(changed(whole, 128, long(told)), JUNK)


def records_at_the_end():
    """Records that end with the file, one byte past it, and one record past it; the element is empty."""
    for count in (1, 2, 64):
        end = RECORD + 12 * count
        whole = profile((GRAY, GRAY), [(b"desc", 0, 0)] * (count - 1) + [(b"A2B0", end, 0)])
        yield run_line(whole)
        yield run_line(resized(whole[:-1]))
        yield run_line(changed(whole, 128, long(count + 1)))
    for length in (11, 12):
        yield run_line(resized(changed(whole, 128, long(2))[:RECORD + 12 + length]))


def signatures():
    """Each letter of the wanted signature counts."""
    for tag in TAGS:
        for letter, bits in product(range(4), (1, 0x20, 0x80)):
            yield run_line(holding(small16(1, 1), tag=flipped(tag, letter, bits)), tag=tag)
        for other in (tag.lower(), tag[::-1], b"desc", bytes(4), *(found for found in TAGS if found != tag)):
            yield run_line(holding(small16(1, 1), tag=other), tag=tag)


def first_of_two_records():
    """The first of two records with the wanted signature counts, whatever the second one says."""
    first, second = small16(1, 1), straight16(1, 1)
    start = RECORD + 24
    named = [(start, len(first)), (start + len(first), len(second)), (start - 1, 52), (start, 51), (start, len(first) - 1)]
    for one, two in permutations(named, 2):
        yield run_line(profile((GRAY, GRAY), [(b"A2B0", *one), (b"A2B0", *two)], first + second), JUNK)


def both_tags():
    """Each direction has its own record, in either order, sound or not."""
    first, second = small16(1, 1), straight16(1, 1)
    sound, early = (RECORD + 24, len(first)), (RECORD + 23, len(first))
    last = (RECORD + 24 + len(first), len(second))
    for spots, names, tag in product(((sound, last), (early, last), (last, early)), (TAGS, TAGS[::-1]), TAGS):
        records = [(name, *spot) for name, spot in zip(names, spots)]
        yield run_line(profile((GRAY, GRAY), records, first + second), JUNK, tag=tag)


def offsets_and_sizes():
    """The element lies between the records' end and the file's end, also where the sum passes 2^32."""
    element = small16(1, 1)
    size, file_end = len(element), ELEMENT + 2 * len(element)
    named = [(ELEMENT, size), (ELEMENT - 1, size), (ELEMENT - 1, 0), (0, size), (0, 0), (128, size), (RECORD, size)]
    named += [(ELEMENT, 2 * size), (ELEMENT, 2 * size + 1), (ELEMENT, 0), (ELEMENT + size, size), (ELEMENT + size, size + 1)]
    named += [(ELEMENT + size + 1, size), (file_end - 1, 1), (file_end - 1, 2), (file_end, 0), (file_end, 1), (file_end + 1, 0)]
    named += [(LONG_END - 1, 0), (LONG_END - 1, 1), (LONG_END - 1, size), (LONG_END - 1, LONG_END - 1)]
    named += [(ELEMENT, LONG_END - 1), (ELEMENT, LONG_END - ELEMENT), (ELEMENT, LONG_END - ELEMENT + size)]
    named += [(LONG_END - size, size), (LONG_END - size, 2 * size), (1 << 31, 1 << 31), (1 << 31, (1 << 31) + file_end)]
    named += [(ELEMENT, 1 << 31), (ELEMENT + (1 << 16), size), (ELEMENT << 16, size), (ELEMENT, size << 16)]
    for offset, told in named:
        yield run_line(profile((GRAY, GRAY), [(b"A2B0", offset, told)], element * 2), JUNK)


def places_of_records():
    """A fault of a record tells where the record stands; sound records do not move the element."""
    for count, at in ((1, 0), (2, 0), (2, 1), (64, 0), (64, 1), (64, 63)):
        yield run_line(among(count, at, offset=-1))
    for count, at in ((1, 0), (2, 0), (2, 1), (64, 0)):
        yield run_line(among(count, at), JUNK)
        yield run_line(among(count, at, size=1))


def two_directory_faults():
    """Of two faults of the directory the one that is checked first counts; a record that is not wanted has none."""
    whole = of_channels(small16, 1, 1)
    for data in twice_faulty(whole, directory_faults()):
        yield run_line(data)
    yield run_line(faulty(whole, directory_faults()))
    yield run_line(changed(among(65, 64, offset=-1), RECORD, b"A2B0"))
    yield run_line(among(2, 1, offset=-1, size=LONG_END - 1))


# ---- Element ---------------------------------------------------------------------------------------------------------


def element_sizes():
    """An element has 52 bytes at least, also a lut8; with just these its tables lie past its size."""
    for make, sizes in ((small16, (0, 1, 48, 51, 52, 53)), (small8, (48, 51, 52))):
        for size in sizes:
            whole = changed(of_channels(make, 1, 1), RECORD + 8, long(size))
            yield run_line(whole)
            yield run_line(resized(whole[:ELEMENT + size]))


def element_types():
    """Each letter of the type counts."""
    wide, narrow = of_channels(small16, 1, 1), of_channels(small8, 1, 1)
    for letter, bits in product(range(3), (1, 0x20, 0x80)):
        yield run_line(changed(wide, ELEMENT, flipped(b"mft2", letter, bits)))
    for wrong in (b"mft1", b"mft0", b"mft3", b"mftA", b"mft\2", b"MFT2", b"2tfm", b"mAB ", b"mBA ", bytes(4)):
        yield run_line(changed(wide, ELEMENT, wrong))
    for wrong in (b"mft2", b"mft0", b"mft\1", b"MFT1", b"1tfm", *(flipped(b"mft1", letter) for letter in range(3))):
        yield run_line(changed(narrow, ELEMENT, wrong))


def channel_numbers():
    """In- and out-channels must be those of the spaces: numbers that are never right, and numbers of another space."""
    for ins, outs in product(NUMBERS, NUMBERS):
        whole = of_channels(small16, ins, outs)
        yield run_line(whole, JUNK)
        for place, right in ((8, ins), (9, outs)):
            for number in sorted({0, 1, 2, 3, 4, 5, 255} - {right}):
                yield run_line(changed(whole, ELEMENT + place, bytes([number])))
        others = [[number for number in NUMBERS if number != right][0] for right in (ins, outs)]
        for both in ((2, 2), others):
            yield run_line(changed(whole, ELEMENT + 8, bytes(both)))


def channels_of_the_other_direction():
    """The in-channels are those of the colour space for A2B0, and of the other space for B2A0; here they are not."""
    for ins, outs in permutations(NUMBERS, 2):
        yield run_line(holding(small16(ins, outs), (DEVICE[outs], DEVICE[ins])))
        yield run_line(holding(small16(ins, outs), (DEVICE[ins], DEVICE[outs]), b"B2A0"), tag=b"B2A0")


def grids():
    """A lattice has 2 to 255 grid points; 255 with one in-channel fit, and their lattice takes all of them."""
    for make, told in ((small16, (0, 1, 2, 3, 254, 255)), (small8, (0, 1, 255))):
        for grid in told:
            yield run_line(changed(of_channels(make, 1, 1), ELEMENT + 10, bytes([grid])), JUNK)
        for outs in (1, 3):
            yield run_line(of_channels(make, 1, outs, 255), *in_first((0, 32896, 65278, 65534, 65535)))


def grids_far_too_large():
    """With 255 grid points and more in-channels the tables lie far past the file, some of them past 2^32 bytes."""
    for ins, outs, grid in product((3, 4), NUMBERS, (0, 1, 128, 255)):
        yield run_line(changed(of_channels(small16, ins, outs), ELEMENT + 10, bytes([grid])))
    for ins in (3, 4):
        element = changed(small8(ins, 4), 10, b"\xff")
        yield run_line(holding(element[:52], (DEVICE[ins], CMYK)))


def table_lengths():
    """Tables of a lut16 have 2 to 4,096 entries; the input tables are looked at first."""
    whole = of_channels(small16, 1, 1)
    for number in (0, 1, 2, 3, 255, 256, 512, 4095, 4096, 4097, 1 << 15, WORD_END - 1):
        yield run_line(changed(whole, ELEMENT + 48, word(number)), JUNK)
        yield run_line(changed(whole, ELEMENT + 50, word(number)), JUNK)
    for n, m in product((1, 4097), (1, 4097)):
        yield run_line(changed(whole, ELEMENT + 48, word(n) + word(m)))


def longest_tables():
    """Input tables of 4,096 entries and output tables of 4,096 entries, all of them there."""
    for n, m in ((4096, 2), (2, 4096)):
        yield run_line(of_channels(small16, 1, 1, n=n, m=m), *in_first(EDGES))


def lut8_tables_in_place_of_lengths():
    """A lut8 has table bytes where a lut16 tells the lengths of its tables; any values may stand there."""
    whole = of_channels(small8, 1, 1)
    for n, m in ((0, 0), (1, 1), (2, 2), (4097, 4097), (WORD_END - 1, WORD_END - 1)):
        yield run_line(changed(whole, ELEMENT + 48, word(n) + word(m)), *in_first((0, 257, 514, 771, 900)))


def of_exact_size(element, ins, outs):
    """The element told one byte too short, exactly, and with surplus bytes; then told and cut one byte too short."""
    spaces = DEVICE[ins], DEVICE[outs]
    for told in (-1, 0, 9):
        yield run_line(profile(spaces, [(b"A2B0", ELEMENT, len(element) + told)], element + b"\xff" * 9), JUNK)
    yield run_line(holding(element[:-1], spaces))


def exact_sizes():
    """Tables may end with the element but not behind it; bytes behind them are not looked at."""
    for ins, outs, grid, n, m in (
        (1, 1, 2, 2, 2), (1, 3, 5, 3, 2), (1, 4, 9, 2, 4), (3, 1, 2, 2, 5), (3, 4, 2, 4, 3), (3, 3, 3, 2, 2),
        (4, 1, 2, 3, 2), (4, 3, 2, 2, 4), (4, 4, 2, 2, 2),
    ):
        yield from of_exact_size(small16(ins, outs, grid, n, m), ins, outs)
    for ins, outs, grid in ((1, 1, 2), (3, 1, 3)):
        yield from of_exact_size(small8(ins, outs, grid), ins, outs)


def two_element_faults():
    """Of two faults of the element the one that is checked first counts; a lut8 has no lengths of tables to check."""
    whole = of_channels(small16, 1, 1)
    for data in twice_faulty(whole, element_faults(whole)):
        yield run_line(data)
    whole = of_channels(small8, 1, 1)
    faults = element_faults(whole)
    for start in range(len(faults)):
        yield run_line(faulty(whole, faults[start:][::-1]))


def faults_of_all_layers():
    """All faults at once, then all but the first, and so on: the first of them counts; then two of different layers."""
    whole = of_channels(small16, 1, 1)
    faults = all_faults(whole)
    for start in range(len(faults)):
        yield run_line(faulty(whole, faults[start:][::-1]))
    header, directory, element = header_faults(whole), directory_faults(), element_faults(whole)
    for earlier, later in ((header, directory), (header, element), (directory, element)):
        yield run_line(faulty(whole, (earlier[-1], later[0])))
        yield run_line(faulty(whole, (earlier[0], later[-1])))


def reserved_bytes():
    """Bytes that have no name are not looked at, nor those of a record that is not wanted."""
    for make in (small16, small8):
        whole = of_channels(make, 1, 1)
        places = (range(4, 16), range(24, 36), range(40, 128), range(ELEMENT + 4, ELEMENT + 8), [ELEMENT + 11])
        for value in (0, 1, 255):
            yield run_line(faulty(whole, [(place, bytes([value])) for place in chain(*places)]), JUNK)
    for place in (132, 144):
        yield run_line(changed(among(2, 1 if place == 132 else 0), place, b"\xff" * 12), JUNK)


def overlapping_elements():
    """Both directions share an element, and one element lies within the tables or behind the tables of another."""
    element = small16(3, 3)
    start = RECORD + 24
    shared = profile((RGB, LAB), [(tag, start, len(element)) for tag in TAGS], element)
    inner = small16(1, 1)
    outer = changed(small8(1, 1), 100, inner)
    within = profile((GRAY, GRAY), [(b"A2B0", start, len(outer)), (b"B2A0", start + 100, len(inner))], outer)
    behind = profile((GRAY, GRAY), [(b"A2B0", start, 2 * len(inner)), (b"B2A0", start + len(inner), len(inner))], inner * 2)
    for data, tag in product((shared, within, behind), TAGS):
        yield run_line(data, JUNK, tag=tag)


def matrix_or_not():
    """The matrix counts with three in-channels only: with one that swaps, one of zeros, and one of extremes."""
    for ins, matrix in product(NUMBERS, (SWAP, [0] * 9, [-(1 << 31), (1 << 31) - 1] * 4 + [-1])):
        yield run_line(of_channels(small16, ins, 1, matrix=matrix), JUNK)
    for ins in NUMBERS:
        yield run_line(of_channels(small8, ins, 1, matrix=SWAP), JUNK)


def odd_places():
    """An element need not stand at a multiple of four."""
    for gap, make in product((1, 2, 3), (small16, small8)):
        element = make(1, 1)
        yield run_line(profile((GRAY, GRAY), [(b"A2B0", ELEMENT + gap, len(element))], bytes(gap) + element), JUNK)
    element = small16(3, 4, matrix=SWAP)
    yield run_line(profile((RGB, CMYK), [(b"A2B0", ELEMENT + 1, len(element))], b"\xff" + element), JUNK)


def lut8_entries():
    """Each byte of a lut8 stands for 257 times itself, at the ends of its tables too."""
    counts = [257 * value for value in (0, 1, 127, 128, 254, 255)] + [1, 128, 129, 65534]
    straight = element8(1, 1, 2, IDENTITY, [range(256)], [0, 255], [range(256)])
    for element in (straight, small8(1, 1)):
        yield run_line(holding(element), *in_first(counts))


# ---- Single stages ---------------------------------------------------------------------------------------------------


def curve_ends():
    """Curves of two entries and of 4,096 at both ends and in the middle."""
    for table in ([0, FULL], [FULL, 0], [0, 1], [FULL, FULL - 1], [7 * k % 1009 for k in range(4096)]):
        yield curve_line([table], *in_first(EDGES))


def curve_entries():
    """Beside each entry of a curve: where the next one begins to weigh."""
    for last in (2, 3, 5, 16, 255):
        places = [FULL * k // last for k in (0, 1, last - 1)]
        counts = [min(max(place + step, 0), FULL) for place in (*places, FULL) for step in (-1, 0, 1)]
        yield curve_line([scattered(last + 1)], *in_first(counts))


def bent_curve():
    """A curve of three entries with a small and a large step: its steepness is that of the large one."""
    yield curve_line([[0, 1000, FULL]], *in_first((0, 1, 32766, 32767, 32768, 32769, 65534, 65535)))
    yield curve_line([[0, FULL - 1000, FULL]], *in_first((32767, 32768)))


def curve_steepness():
    """The steepness is rounded up, counts falls as well as rises, and is that of the steepest table."""
    for table in ([9, 9], [0, 1], [1, 0], [0, FULL - 1], [FULL, 0, 0], [0, 1, 2], [0, FULL] * 128):
        yield curve_line([table], JUNK)
    for at in range(3):
        yield curve_line([[0, 5000] if k == at else [0, 70] for k in range(3)], JUNK)


def curves_of_channels():
    """Each channel has its own table; channels beyond them end as 0."""
    for channels, length in product(NUMBERS, (2, 3, 7)):
        tables = [scattered(length, 1000 * k) for k in range(channels)]
        yield curve_line(tables, JUNK, JUNK[::-1], (0,) * 4, (FULL,) * 4)


def matrix_halves():
    """Halves go up, also where coefficients are negative."""
    half = [UNIT // 2, 0, 0] + [0, UNIT // 2, 0] + [0, 0, UNIT // 2]
    yield matrix_line(half, (0, 1, 2, 9), (3, 4, 5, 9), (65533, 65534, 65535, 9))
    yield matrix_line([UNIT // 2, -UNIT, 0] * 3, (10001, 2000, 0, 0), (10000, 2000, 0, 0), (10002, 2000, 0, 0))
    yield matrix_line([UNIT, -UNIT // 2, 0] * 3, (1, 1, 0, 0), (1, 2, 0, 0), (1, 3, 0, 0), (2, 3, 0, 0), (0, 1, 0, 0))
    just = [UNIT // 2 - 1, 0, 0, UNIT // 2, 0, 0, UNIT // 2 + 1, 0, 0]
    yield matrix_line(just, (1, 0, 0, 0), (3, 0, 0, 0), (65535, 0, 0, 0))


def matrix_held():
    """Results are held at 0 and at the largest count."""
    yield matrix_line([-UNIT, 0, 0] * 3, (5, 0, 0, 0), (0, 9, 9, 9), (FULL, FULL, FULL, FULL))
    yield matrix_line([-1, 0, 0, UNIT, -UNIT, 0, UNIT, -UNIT, 1], (1, 1, 1, 0), (1, 2, FULL, 0), (2, 1, FULL, 0))
    yield matrix_line([UNIT, 1, 0, UNIT, UNIT, 0, UNIT + 1, 0, 0], (FULL, 0, 0, 0), (FULL, 1, 0, 0), (FULL - 1, 2, 0, 0))
    yield matrix_line([UNIT, UNIT // 2, 0, UNIT, -1, 0, UNIT, 1, -1], (FULL, 1, 0, 0), (FULL - 1, 1, 0, 0), (FULL, 0, FULL, 0))


def matrix_extremes():
    """The largest and the smallest coefficients, at the largest counts."""
    low, high = -(1 << 31), (1 << 31) - 1
    colours = (FULL,) * 4, (0,) * 4, (1, 1, 1, 1), (FULL, 0, FULL, 0), (FULL, FULL, 0, 0), (0, FULL, FULL, 0)
    mixed = [low, high, 0], [low, high, 1], [low, high, high], [high, low, low], [high, low, 32769]
    for row_of_three in ([low] * 3, [high] * 3, *mixed):
        yield matrix_line(row_of_three * 3, *colours)
    yield matrix_line([low, 0, 0, 0, high, 0, low, low, high], *colours)


def matrix_whole_numbers():
    """The error is 0 if all nine coefficients are whole, wherever the one stands that is not."""
    yield matrix_line([UNIT, 0, -UNIT, 2 * UNIT, 0, 0, -3 * UNIT, 0, 0], JUNK)
    yield matrix_line([0] * 9, JUNK)
    for at, step in product(range(9), (1, UNIT // 2)):
        yield matrix_line([value + step if k == at else value for k, value in enumerate(IDENTITY)], JUNK)


def matrix_steepness():
    """The steepness is the largest sum of a row, exactly up to the one that claims nothing, which it does not pass."""
    for at, step in product(range(3), (-1, 0, 1)):
        for steep in ([TOP + step, 0, 0], [TOP // 2, -TOP // 2, step], [-TOP // 3, -TOP // 3, -TOP // 3 + 2 - step]):
            yield matrix_line([value for k in range(3) for value in (steep if k == at else [UNIT, 1, -1])], JUNK)


def lattice_corners():
    """At each corner of the grid its node alone, and behind the last one nothing."""
    for ins, outs in product(NUMBERS, NUMBERS):
        corners = [corner + JUNK[ins:] for corner in product((0, FULL), repeat=ins)]
        yield lattice_line(ins, outs, 2, scattered(2 ** ins * outs), *corners)


def lattice_order():
    """The first channel varies slowest, and the outputs of a node lie side by side."""
    for ins, outs, grid in ((1, 3, 5), (3, 1, 3), (3, 4, 3), (4, 1, 3), (4, 3, 3)):
        nodes = lattice(ins, outs, grid, lambda *index: [4000 * sum(3 ** k * i for k, i in enumerate(index)) % UNIT + k
                                                          for k in range(outs)])
        places = [tuple(FULL if k == at else 0 for k in range(4)) for at in range(4)]
        yield lattice_line(ins, outs, grid, nodes, *places, JUNK, JUNK[::-1])


def lattice_orders_of_channels():
    """Each of the six orders of three remainders, equal ones in two and in three channels, and halfway."""
    levels = 13107, 39321, 52428
    colours = [(*order, 9) for order in permutations(levels)]
    colours += [(*order, 9) for order in product((13107, 52428), repeat=3)]
    colours += [(count,) * 4 for count in (39321, 32767, 32768)]
    colours += [(32767, 32768, 32767, 0), (1, 0, 1, 0), (65534, 65535, 65534, 0)]
    yield lattice_line(3, 1, 2, [0, 1000, 2000, 3000, 4000, 5000, 6000, 60000], *colours)
    yield lattice_line(3, 3, 2, scattered(24), *colours)
    yield lattice_line(3, 1, 3, scattered(27), *colours)


def lattice_on_nodes():
    """A remainder of 0 in each channel, in two and in all, within the grid and at its ends; and one count beside."""
    for ins in NUMBERS:
        colours = list(product((21845, 30000), repeat=ins)) + list(product((21844, 21846), repeat=ins))
        colours += [(43690,) * ins, (0,) * ins, (FULL,) * ins, (21845, FULL, 0, 43690)[:ins], (FULL, 21845, 43690, 0)[:ins]]
        yield lattice_line(ins, 1, 4, scattered(4 ** ins), *[colour + (0,) * (4 - ins) for colour in colours])


def lattice_last_nodes():
    """The finest grid at its last nodes, and at its first."""
    steps = (0, 1, 257, 258, 259, 32767, 32768, 65276, 65277, 65278, 65533, 65534, 65535)
    for outs in (1, 3):
        yield lattice_line(1, outs, 255, scattered(255 * outs), *in_first(steps))


def lattice_of_four_channels():
    """The first of four channels at 0, at its end and between, with the others at their ends, equal, and in all orders."""
    others = [*product((0, FULL), repeat=3), *permutations((13107, 39321, 52428)), (39321,) * 3, (13107, 13107, 39321)]
    for outs in (1, 4):
        for first in (0, 1, 32767, 32768, 65534, 65535):
            yield lattice_line(4, outs, 2, scattered(16 * outs), *[(first, *rest) for rest in others])


def four_channels_rounded_once():
    """With four channels the whole mean is rounded, not the means of the three first."""
    cube = [0, 1000, 2000, 3000, 4000, 5000, 6000, 60000]
    yield lattice_line(4, 1, 2, cube + [0] * 8, (32768, 39321, 39321, 39321), (32767, 39321, 39321, 39321))
    yield lattice_line(4, 1, 2, [0] * 8 + cube, (32768, 39321, 39321, 39321), (32767, 39321, 39321, 39321))
    thirds = [(first, 32767, 32767, 32767) for first in (16384, 21845, 32767, 32768, 43690, 49151)]
    yield lattice_line(4, 1, 2, [0] * 7 + [1] + [0] * 7 + [2], *thirds)
    yield lattice_line(4, 1, 2, [1] * 7 + [0] + [1] * 7 + [3], *thirds)


def largest_sums():
    """All entries at the largest count, where the weighed sums are as large as they can be."""
    colours = JUNK, JUNK[::-1], (0,) * 4, (1,) * 4, (32767,) * 4, (32768,) * 4, (65534,) * 4, (FULL,) * 4
    yield curve_line([[FULL] * 5] * 4, *colours)
    for ins, grid in product(NUMBERS, (2, 3)):
        yield lattice_line(ins, 1, grid, [FULL] * grid ** ins, *colours)


def lattice_steepness():
    """The largest differences along the channels add up for each output by itself, and the largest total counts."""
    yield lattice_line(3, 1, 2, [0, 1000, 2000, 3000, 4000, 5000, 6000, 60000], JUNK)
    yield lattice_line(3, 3, 2, [9, 9, 9, 9, 9, 9, 9, 9, 9, 9, 9, 9, 109, 9, 9, 109, 9, 9, 109, 9, 9, 109, 9, 9], JUNK)
    for at in range(4):
        nodes = lattice(4, 4, 2, lambda *index: [(50 + k) * index[k] + (9 * sum(index) if k == at else 0) for k in range(4)])
        yield lattice_line(4, 4, 2, nodes, JUNK)
    yield lattice_line(1, 3, 3, [0, 0, 500, 100, 0, 400, 0, 0, 0], JUNK)
    yield lattice_line(1, 1, 2, [FULL, 0], JUNK)
    yield lattice_line(1, 1, 2, [7, 7], JUNK)
    for ins, grid in ((1, 255), (3, 3), (4, 2)):
        nodes = lattice(ins, 1, grid, lambda *index: [FULL * (sum(index) % 2)])
        yield lattice_line(ins, 1, grid, nodes, JUNK)


# ---- Chains ----------------------------------------------------------------------------------------------------------

STEEP_MATRICES = (  # with these in turn the error of three profiles is one below the largest, the largest, one above
    (6553778, 28254313), (6553631, 28254937), (6553896, 28253811),
)


def between(source, target, make=small16, **named):
    """A profile from a space to a space."""
    return holding(make(SPACES[source], SPACES[target], **named), (source, target))


def diagonal(number):
    return [number if k % 4 == 0 else 0 for k in range(9)]


def steep_chain(matrices):
    """Profiles that change nothing but by their matrices; the first one changes nothing at all."""
    return [of_channels(straight16, 3, 3, diagonal(number)) for number in (UNIT, *matrices)]


def chain_lengths():
    """Chains of one to four profiles, through spaces of one, three and four channels."""
    spaces = [GRAY, RGB, CMYK, LAB, GRAY]
    for start, end in combinations(range(5), 2):
        files = [between(*pair) for pair in zip(spaces[start:end], spaces[start + 1:end + 1])]
        yield chain_line(files, JUNK, (FULL,) * 4)


def chains_of_every_length():
    """From 1 to 34 profiles, more than any list of chains made by hand: all are opened, and the error tells how many."""
    there = between(RGB, LAB, straight16, curve=(500, 65000))
    back = between(LAB, RGB, straight16, matrix=SWAP, curve=(FULL, 0))
    for count in range(1, 35):
        yield chain_line(([there, back] * 17)[:count], JUNK, (FULL,) * 4)


def long_chains_that_do_not_fit():
    """Behind so many profiles one that does not begin where the last of them ends."""
    for count in (5, 8, 9, 17, 33):
        yield chain_line([of_channels(even16, 1, 1)] * count + [between(RGB, GRAY)])


def there_and_back():
    """One profile twice, in both directions: the other space of the first use is where the second begins."""
    first, second = small16(3, 4), small16(4, 3)
    start = RECORD + 24
    records = [(b"A2B0", start, len(first)), (b"B2A0", start + len(first), len(second))]
    data = profile((RGB, CMYK), records, first + second)
    for tags in product(TAGS, TAGS):
        yield chain_line([data, data], JUNK, tags=tags)


def faults_at_positions():
    """Each fault at the first, second and third profile tells that position; behind it stands one of no bytes."""
    whole = of_channels(small16, 1, 1)
    for position in range(3):
        for fault in all_faults(whole):
            yield chain_line([whole] * position + [faulty(whole, [fault]), b""])


def misfits():
    """A profile that does not begin where the one before it ends, at the second, third and fourth place."""
    fits, misfit = of_channels(small16, 1, 1), of_channels(small16, 3, 1)
    for position in (1, 2, 3):
        yield chain_line([misfit if k == position else fits for k in range(4)])
    yield chain_line([fits, misfit, misfit])
    yield chain_line([misfit, misfit])
    yield chain_line([misfit, fits], JUNK)


def misfits_of_equal_channels():
    """Spaces with the same number of channels do not fit each other."""
    for end, begin in product((RGB, LAB, XYZ), repeat=2):
        yield chain_line([between(GRAY, end), between(begin, GRAY)], JUNK)
    yield chain_line([between(RGB, LAB), between(RGB, LAB)], JUNK)
    yield chain_line([between(RGB, LAB), holding(small16(3, 3), (RGB, LAB), b"B2A0")], JUNK, tags=TAGS)


def fault_and_misfit():
    """A fault counts before a misfit of the same profile; otherwise the earlier profile counts."""
    fits, misfit = of_channels(small16, 1, 1), of_channels(small16, 3, 1)
    for fault in all_faults(misfit):
        yield chain_line([fits, faulty(misfit, [fault])])
    faults = all_faults(fits)
    for fault in (faults[0], faults[5], faults[-1]):
        yield chain_line([fits, misfit, faulty(fits, [fault])])
        yield chain_line([fits, faulty(fits, [fault]), misfit])
    yield chain_line([faulty(fits, faults[-1:]), faulty(fits, faults[:1])])


def mixed_types():
    """A lut8 and a lut16 in one chain, in either order: values pass between them as they are."""
    for first, second in product((small8, small16), repeat=2):
        yield chain_line([of_channels(first, 1, 1), of_channels(second, 1, 1)], *in_first(EDGES))
    yield chain_line([of_channels(small16, 1, 3), of_channels(small8, 3, 1)], JUNK)


def joined_errors():
    """The joined error just below the largest, just there, and held there; and before and behind the largest steepness."""
    for matrices in STEEP_MATRICES:
        yield chain_line(steep_chain(matrices), JUNK)
    for matrices in ((UNIT, TOP - 1), (UNIT, TOP), (TOP, UNIT), (TOP - 1, UNIT), (TOP - 1, TOP - 1), (TOP, TOP)):
        yield chain_line(steep_chain(matrices), JUNK)
    for last in (TOP - 1, UNIT, 1, 0):
        yield chain_line(steep_chain((TOP - 1, TOP - 1, last)), JUNK)


def joined_steepness():
    """The joined steepness just below the one that claims nothing, just there, and held there."""
    half = 1 << 23  # two of these give just the steepness that claims nothing
    for two in ((half, half - 1), (half, half), (half, half + 1), (TOP, 0), (0, TOP), (1, 1)):
        yield chain_line([of_channels(straight16, 3, 3, diagonal(number)) for number in two], JUNK)
    for number in (TOP - 1, TOP, TOP + 1):
        yield run_line(of_channels(straight16, 3, 3, diagonal(number)), JUNK)


# ---- The converter ---------------------------------------------------------------------------------------------------

PAIRS = ((1, 1), (1, 3), (3, 4), (4, 1))  # in- and out-channels of the stages that are used
KINDS = {1: "g8", 3: "r8", 4: "c8"}  # a pixel kind for each number of channels
EMPTY, FILLING, FULL_LINK = (), ("B 2", "F 1"), ("B 2", "F 99")  # calls that lead to each state from the empty one
STATES = (EMPTY, FILLING, FULL_LINK)


def stage_file(ins, outs):
    return of_channels(even16, ins, outs)


def begin_grids():
    """A link has 2 to 33 grid points, whatever fewer bits would make of the number; a refused one changes nothing."""
    grids = (0, 1, 2, 3, 32, 33, 34, 35, 255, 256, 258, 289, (1 << 16) + 2, (1 << 32) + 2, (1 << 63) + 2, HUGE_END - 1)
    for grid in grids:
        yield conv_line([stage_file(1, 1)], 33, f"B {grid}", "F 1")
    yield conv_line([stage_file(1, 1)], 33, *[f"B {grid}" for grid in grids])
    yield conv_line([stage_file(1, 1)], 33, "B 2", "F 2", *[f"B {grid}" for grid in grids if not 2 <= grid <= 33], "Q")


def begin_tables():
    """The table holds all numbers of the link: exactly as many, and one too few."""
    for ins, outs, grid in ((1, 1, 2), (1, 1, 33), (1, 3, 33), (3, 4, 2), (3, 4, 3), (3, 4, 33), (4, 1, 2), (4, 1, 33)):
        for short in (0, 1):
            yield conv_line([stage_file(ins, outs)], grid ** ins * outs - short, f"B {grid}", "Q")
    yield conv_line([stage_file(1, 1)], 0, "B 2", "B 1", "B 34", "B 33")


def fill_budgets():
    """A fill stores no more than are missing, whatever fewer bits would make of the budget."""
    for budget in (0, 1, 7, 8, 9, 1 << 32, (1 << 32) + 1, 1 << 63, HUGE_END - 1):
        yield conv_line([stage_file(3, 4)], 33, "B 2", f"F {budget}", f"F {budget}", "Q")
    yield conv_line([stage_file(3, 4)], 32, "B 2", "F 3", "F 0", "F 4", "F 0", "F 1", "F 0", "F 1")
    yield conv_line([stage_file(3, 4)], 32, "B 2", "F 7", "F 2", "F 1")


def filled_in_parts():
    """Each fill writes its own nodes only; what lies behind them and behind the link is kept."""
    for (ins, outs), more in product(PAIRS, (0, 3)):
        nodes = 2 ** ins
        yield conv_line([stage_file(ins, outs)], nodes * outs + more, "B 2", *["F 1"] * nodes)
        yield conv_line([stage_file(ins, outs)], nodes * outs + more, "B 2", f"F {nodes - 1}", "F 5")


def node_counts():
    """Node counts are rounded, halves upward: all grids with one in-channel, and three and four with more."""
    calls = [call for grid in range(2, 34) for call in (f"B {grid}", "F 33")]
    for table in (33, 40):
        yield conv_line([of_channels(straight16, 1, 1)], table, *calls)
    for grid in (3, 5, 7):
        yield conv_line([of_channels(straight16, 3, 3)], grid ** 3 * 3, f"B {grid}", "F 999", row("L", "r8", "r16", 4))
    yield conv_line([of_channels(straight16, 4, 3)], 3 ** 4 * 3, "B 3", "F 80", "F 1", row("L", "c8", "r16", 4))


def begin_again():
    """Begin starts anew while filling and when full, also after a drop; a drop needs no link."""
    file = [stage_file(1, 3)]
    yield conv_line(file, 12, "B 4", "F 2", "B 2", "F 1", "B 3", "F 9", "B 4", "F 1", "Q")
    yield conv_line(file, 12, "B 2", "F 2", "B 2", row("L", "g8", "r8", 1), "W 99", "F 0", "F 2", row("L", "g8", "r8", 1))
    yield conv_line(file, 12, "D", "D", "B 2", "D", "F 1", "B 2", "F 2", "D", "F 1", "B 3", "F 3", row("L", "g8", "r8", 1))
    yield conv_line(file, 12, "B 2", "F 1", "B 34", "F 1", "B 5", "B 1", row("L", "g8", "r8", 1))


def begin_refusals():
    """Begin in each state, with a grid of too few or too many points, over a table that is too short, and with both."""
    for state, lent, grid in product(STATES, (6, 5), (1, 2, 3, 34)):
        yield conv_line([stage_file(1, 3)], 6, *state, f"T {lent}", f"B {grid}", "Q")


def fill_refusals():
    """Fill in each state, over a table that is long enough or too short: the state is looked at first."""
    for state, lent, budget in product(STATES, (6, 5), (0, 9)):
        yield conv_line([stage_file(1, 3)], 6, *state, f"T {lent}", f"F {budget}", "Q")


def row_refusals():
    """Both row calls in each state, over a table long enough or too short, with kinds that fit or not, rows that fit or not."""
    kinds = ("g8", "r8"), ("r8", "r8"), ("g8", "c8"), ("c8", "g8")
    for letter, state, lent in product("RL", STATES, (6, 5)):
        calls = [row(letter, *pair, 2, pixels) for pair in kinds for pixels in (2, 1, 3)]
        yield conv_line([stage_file(1, 3)], 6, *state, f"T {lent}", *calls, "Q")


def write_refusals():
    """Write in each state, over a table long enough or too short, with an output long enough or too short."""
    length = 52 + 4 + 2 * 6 + 12
    for state, lent in product(STATES, (6, 5)):
        calls = [f"W {told}" for told in (length - 1, length, length + 5, 0)]
        yield conv_line([stage_file(1, 3)], 6, *state, f"T {lent}", *calls, "Q")


def quote_and_drop():
    """Quote and drop are taken in each state, whatever the table."""
    for state, lent, call in product(STATES, (6, 0), "QD"):
        yield conv_line([stage_file(1, 3)], 6, *state, f"T {lent}", call, "Q")


def lent_tables():
    """Each call that looks at the table: lent exactly enough, one too few, none, one more, and more than there are."""
    lends, file = (32, 31, 0, 33, HUGE_END - 1), [stage_file(3, 4)]
    for table in (32, 36):
        for state, call in ((EMPTY, "B 2"), (FULL_LINK, row("L", "r8", "c8", 2)), (FULL_LINK, "W 200")):
            yield conv_line(file, table, *state, *[f"T {lent} {call}" for lent in lends])
        for lent in lends:
            yield conv_line(file, table, *FILLING, f"T {lent}", "F 6", f"T {table}", "F 9")


def rows_of_kinds():
    """All pairs of pixel kinds over stages of all channels, in a row and in a link row."""
    for ins, outs, letter in product(NUMBERS, NUMBERS, "RL"):
        calls = [row(letter, entering, leaving, 2) for entering, leaving in product(KIND_CHANNELS, repeat=2)]
        yield conv_line([stage_file(ins, outs)], 2 ** ins * outs, *FULL_LINK, *calls)


def row_lengths():
    """Rows of no pixel, of one and of many; a row after a refused one; a refused leaving row of many pixels is kept."""
    for letter, (ins, outs) in product("RL", PAIRS):
        pair = KINDS[ins], KINDS[outs]
        sizes = (0, 0), (0, 1), (1, 0), (1, 1), (1, 2), (2, 1), (2, 2), (9, 9), (9, 8), (8, 9), (0, 0), (0, 90)
        calls = [row(letter, *pair, *size) for size in sizes]
        yield conv_line([stage_file(ins, outs)], 2 ** ins * outs, *FULL_LINK, *calls)


def samples_of_kinds():
    """Samples at their ends and where the count of a colour turns into the next sample."""
    straight = [of_channels(straight16, 3, 3)]
    turns = [257 * value + step for value in (0, 1, 127, 254) for step in (127, 128, 129)]
    wide = [0, 1, *turns, 65406, 65407, 65534, 65535]
    narrow = [0, 1, 2, 126, 127, 128, 129, 253, 254, 255, 0, 255]
    for letter in "RL":
        calls = [row_of(letter, "r16", leaving, wide) for leaving in ("r8", "r16")]
        calls += [row_of(letter, "r8", leaving, narrow) for leaving in ("r8", "r16")]
        yield conv_line(straight, 24, *FULL_LINK, *calls)
    yield conv_line([of_channels(straight16, 1, 1)], 2, row_of("R", "g8", "g8", narrow))
    yield conv_line([of_channels(straight16, 4, 4)], 64, row_of("R", "c8", "c8", narrow))


def written_links():
    """The output just long enough, one too short, longer and empty; then the link is used further."""
    for ins, outs in PAIRS:
        numbers = 2 ** ins * outs
        length = 52 + 4 * ins + 2 * numbers + 4 * outs
        calls = [f"W {told}" for told in (0, length - 1, length, length + 1, length + 100, 51, 52)]
        again = row("L", KINDS[ins], KINDS[outs], 2), "F 1", "Q", "D", f"W {length}"
        yield conv_line([stage_file(ins, outs)], numbers + 3, *FULL_LINK, *calls, *again)


def largest_link():
    """The finest grid, filled, run and written."""
    for outs in (1, 3):
        length = 52 + 4 + 66 * outs + 4 * outs
        used = row("L", "g8", KINDS[outs], 9), f"W {length}", f"W {length - 1}", "Q"
        yield conv_line([stage_file(1, outs)], 33 * outs, "B 33", "F 32", "F 1", *used)


def links_past_two_bytes():
    """Links whose nodes or numbers are more than two bytes can count: filled in two parts, run and written."""
    for ins, outs, grid in ((3, 4, 33), (4, 1, 17)):
        nodes = grid ** ins
        length = 52 + 4 * ins + 2 * nodes * outs + 4 * outs
        used = row("L", KINDS[ins], KINDS[outs], 9), f"W {length}", f"W {length - 1}", "Q"
        yield conv_line([stage_file(ins, outs)], nodes * outs + 1, f"B {grid}", f"F {nodes - 1}", "F 1", *used)


def link_errors():
    """The error of a link just below the largest and held there; it falls with finer grids."""
    for grid in (2, 3, 4, 32, 33):
        yield conv_line([of_channels(straight16, 1, 1)], 33, "Q", f"B {grid}", "Q", "F 33", "Q", row("L", "g8", "g8", 1))
    for last in (65531, 65532, 65533, 65534):
        yield conv_line([of_channels(straight16, 1, 1, curve=(0, last))], 2, *FULL_LINK, "Q", row("L", "g8", "g8", 1))


def link_errors_without_steepness():
    """A stage that claims no steepness has links of the largest error, and its own error all the same."""
    for number, grid in product((TOP - 1, TOP, TOP + 1), (2, 3)):
        calls = "Q", f"B {grid}", "Q", "F 99", "Q", row("R", "r8", "r8", 1), row("L", "r8", "r8", 1), row("L", "r8", "r16", 1)
        yield conv_line([of_channels(straight16, 3, 3, diagonal(number))], 81, *calls)


def largest_row_errors():
    """The error of a row with that of the pixel kind: just below the largest, just there, and held there."""
    for matrices in STEEP_MATRICES:
        calls = "Q", row("R", "r8", "r16", 1), row("R", "r8", "r8", 1), "B 2", "F 8", "Q", row("L", "r8", "r8", 1)
        yield conv_line(steep_chain(matrices), 24, *calls)


def converters_over_chains():
    """A converter over two profiles; no calls at all; a chain with a fault or a misfit, and calls."""
    first, second = stage_file(1, 3), stage_file(3, 4)
    yield conv_line([first, second], 8, "Q", "B 2", "F 2", row("R", "g8", "c8", 2), row("L", "g8", "c8", 2), "W 99")
    yield conv_line([first], 4)
    yield conv_line([first], 0)
    for position, fault in product(range(2), (header_faults(first)[0], element_faults(first)[-2])):
        files = [faulty(file, [fault]) if k == position else file for k, file in enumerate((first, second))]
        yield conv_line(files, 4, "B 2", "Q")
    yield conv_line([second, first], 4, "B 2", "Q")
    yield conv_line([b""], 4)


def seeds():
    """The table's first numbers, from any seed."""
    for seed in (0, 1, WORD_END - 1, WORD_END, LONG_END - 1, LONG_END, HUGE_END - 1):
        yield conv_line([stage_file(1, 1)], 3, "Q", seed=seed)


# ---- Lines that are no request or nearly none ------------------------------------------------------------------------

PLAIN = (  # short requests, one of each kind and of each call with something behind its letter
    "run A2B0 - 1 1 2 3 4",
    "chain 2 A2B0 - B2A0 00 1 1 2 3 4",
    "curve 1 2 0 65535 1 1 2 3 4",
    "matrix 65536 0 0 0 65536 0 0 0 65536 1 1 2 3 4",
    "lattice 1 1 2 0 65535 1 1 2 3 4",
    "conv 1 A2B0 - 9 0 T 9",
    "conv 1 A2B0 - 9 0 B 2",
    "conv 1 A2B0 - 9 0 F 1",
    "conv 1 A2B0 - 9 0 R g8 g8 1 1 9",
    "conv 1 A2B0 - 9 0 L r16 r8 1 2 9 8 7",
    "conv 1 A2B0 - 9 0 W 9",
)


def with_token(line, at, token):
    """The line with one token replaced."""
    tokens = line.split(" ")
    tokens[at] = token
    return " ".join(tokens)


def numbers_replaced(replace):
    """Each number of each plain request replaced in turn."""
    for line in PLAIN:
        for at, token in enumerate(line.split(" ")):
            if token.isdigit() and token != "00":
                yield with_token(line, at, replace(token))


def plain_requests():
    """The requests that are spoiled below, as they are; and each call that has nothing behind its letter."""
    yield from PLAIN
    yield "conv 1 A2B0 - 9 0 Q"
    yield "conv 1 A2B0 - 9 0 D"
    yield "conv 1 A2B0 - 9 0"


def unknown_words():
    """The first word must be that of a request."""
    for wrong in ("", " ", "-", "0", "quit", "curves", "curv", "RUN", "Run", "c", "run,", "probe"):
        yield wrong
        yield f"{wrong} A2B0 - 0"
    yield from sorted({line.split(" ")[0] for line in PLAIN})


def missing_tokens():
    """Each token of each request left out."""
    for line in PLAIN:
        tokens = line.split(" ")
        for at in range(len(tokens)):
            yield " ".join(tokens[:at] + tokens[at + 1:])


def surplus_tokens():
    """One token too many, in front and behind."""
    for line, more in product(PLAIN, ("0", "x", "-", "A2B0")):
        yield f"{line} {more}"
        yield f"{more} {line}"
    for letter, more in product("QD", ("0", "-", "")):
        yield f"conv 1 A2B0 - 9 0 {letter} {more}"


def wrong_spaces():
    """Tokens are parted by one space each, and none stands in front or behind."""
    for line in PLAIN:
        tokens = line.split(" ")
        for at in range(len(tokens) + 1):
            yield " ".join(tokens[:at] + [""] + tokens[at:])
        for wrong in ("\t", "\r", "\v", ","):
            yield line.replace(" ", wrong, 1)
            yield line + wrong


def signs():
    """No number has a sign but the coefficients of a matrix, and these only a minus."""
    for sign in "+-":
        yield from numbers_replaced(lambda token: sign + token)
    for wrong in ("-", "--1", "-+1", "+-1", "1-", "- 1"):
        yield with_token(PLAIN[3], 1, wrong)


def leading_zeros():
    """Zeros in front of a number do not matter, however many."""
    for zeros in ("0", "0" * 25):
        yield from numbers_replaced(lambda token: zeros + token)


def largest_numbers():
    """The largest number of eight bytes, and the next; multiples of powers of two, which fewer bits would take for 0."""
    for number in (HUGE_END - 1, HUGE_END, 10 ** 40):
        yield from numbers_replaced(lambda token: str(number))
    for power in (32, 61, 62, 63):
        for line in ("run A2B0 - {}", "chain {} 0", "chain 1 A2B0 - {}", "curve 1 2 0 1 {}", "curve {} 2 1 0 0", "curve 1 {} 0",
                     "matrix 0 0 0 0 0 0 0 0 0 {}", "lattice 1 1 2 0 1 {}", "lattice 1 1 {} 0", "conv {} 0 0",
                     "conv 1 A2B0 - 0 0 R c8 g8 {} 0", "conv 1 A2B0 - 0 0 L g8 g8 {} 0", "conv 1 A2B0 - 0 0 R g8 c8 0 {}"):
            yield line.format(1 << power)


def no_numbers():
    """Numbers are written in decimal digits."""
    for wrong in ("x", "1.0", "0x1", "1_0", "", "1\t"):
        yield from numbers_replaced(lambda token: wrong)


def counts_out_of_range():
    """Counts, entries and nodes go up to 65,535."""
    for line, at in ((PLAIN[0], 4), (PLAIN[1], 7), (PLAIN[2], 3), (PLAIN[2], 9), (PLAIN[3], 11), (PLAIN[4], 4), (PLAIN[4], 10)):
        for number in (65535, 65536):
            yield with_token(line, at, str(number))


def coefficients_out_of_range():
    """Coefficients of a matrix are signed numbers of four bytes."""
    for at, number in product((1, 9), ("2147483647", "2147483648", "-2147483648", "-2147483649", "-0", "-007", "4294967295")):
        yield with_token(PLAIN[3], at, number)


def samples_out_of_range():
    """Samples go up to 255, those of 16 bits up to 65,535."""
    for kind, channels in KIND_CHANNELS.items():
        for above, letter, at in product((0, 1), "RL", range(channels)):
            largest = FULL if kind == "r16" else 255
            samples = [largest + above if k == at else 0 for k in range(channels)]
            yield conv_line([b""], 0, row_of(letter, kind, "g8", samples))


def shapes_out_of_range():
    """How many profiles a chain has; how many tables and entries a curve has; channels and grid points of a lattice."""
    for line in ("chain 0 0", "conv 0 0 0", "chain 1 0", "chain 2 A2B0 - 0", "conv 2 A2B0 - 0 0"):
        yield line
    for line in ("chain 0", "chain 0 1 1 2 3 4", "conv 0", "conv 0 9 0 Q"):
        yield line
    for channels in range(7):
        yield request("curve", channels, 2, *[0, 1] * channels, *colour_tokens([JUNK]))
        yield lattice_line(channels, 1, 2, [0] * 2 ** channels, JUNK)
        yield lattice_line(1, channels, 2, [0] * 2 * channels, JUNK)
    for length in (1, 2, 4097):
        yield curve_line([[1] * length], JUNK)
    yield "curve 1 0 0"
    for grid in (0, 1, 2, 3, 255, 256, 258):
        yield lattice_line(1, 1, grid, [0] * grid, JUNK)


def wrong_tags():
    """The tag is one of two words."""
    for wrong in ("C2B0", "A2B1", "a2b0", "A2B", "A2B00", "B2B0", "A2A0", "41324230", "-", ""):
        yield f"run {wrong} - 0"
        yield f"chain 2 A2B0 - {wrong} - 0"
        yield f"conv 1 {wrong} - 0 0 Q"


def hexadecimal_digits():
    """Bytes are told by two hexadecimal digits each, of either case."""
    whole = of_channels(small16, 1, 1)
    for digits in (whole.hex().upper(), whole.hex().title(), whole.hex()[:-1], whole.hex() + "0", whole.hex()[:-1] + "g"):
        yield f"run A2B0 {digits} 1 1 2 3 4"
    even = "00", "0000", "aF", "fg", "g0", "0G", "0x00", "--", "+0", "zz", "a`", "@a", "/0", "0:"
    for digits in (*even, "0", "000", "-00", "00-", "0 0", ""):
        yield f"run A2B0 {digits} 0"
        yield f"chain 2 A2B0 - A2B0 {digits} 0"
        yield f"conv 1 A2B0 {digits} 0 0 Q"


def lengths_out_of_range():
    """Table, leaving row and output have at most 16,777,216 numbers, pixels and bytes."""
    yield "conv 1 A2B0 - 16777216 0 Q"
    yield "conv 1 A2B0 - 16777217 0 Q"
    yield "conv 1 A2B0 - 0 0 W 16777216"
    yield "conv 1 A2B0 - 0 0 W 16777217"
    for letter, kind in product("RL", KIND_CHANNELS):
        yield f"conv 1 A2B0 - 0 0 {letter} g8 {kind} 0 16777217"


def wrong_kinds_and_letters():
    """Pixel kinds and calls have their names and no others."""
    for wrong, letter in product(("g16", "c16", "r", "8", "G8", "R8", "rgb", "g8 ", "", "g08", "r24"), "RL"):
        yield f"conv 1 A2B0 - 0 0 {letter} {wrong} g8 0 0"
        yield f"conv 1 A2B0 - 0 0 {letter} g8 {wrong} 0 0"
    for wrong in ("X", "b", "q", "BB", "QD", "B2", "", "-", "0", "T", "B", "F", "R", "L", "W"):
        yield f"conv 1 A2B0 - 0 0 {wrong}"
        yield f"conv 1 A2B0 - 0 0 Q {wrong} 1"


def whole_line_first():
    """A line is read to its end first: one wrong token makes it no request, although its profile has a fault."""
    sound = hex_of(stage_file(1, 1))
    for data, calls in product((sound, "-"), ("B 2 F 2 X", "B 2 Q Q 1", "B 2 F", "R g8 g8 1 1 256", "Q Q Q D ", "W -1")):
        yield f"conv 1 A2B0 {data} 2 0 {calls}"
    for tail in ("1 1 2 3", "1 1 2 3 65536", "0 0", "2 1 2 3 4", "x"):
        yield f"run A2B0 - {tail}"
        yield f"chain 2 A2B0 - A2B0 - {tail}"


# ---- All lines -------------------------------------------------------------------------------------------------------

GROUPS = {
    "file and header": (
        file_lengths, length_fields, marks, space_pairs, nearly_spaces, unknown_spaces, two_header_faults,
    ),
    "directory": (
        record_counts, records_at_the_end, signatures, first_of_two_records, both_tags, offsets_and_sizes, places_of_records,
        two_directory_faults,
    ),
    "element": (
        element_sizes, element_types, channel_numbers, channels_of_the_other_direction, grids, grids_far_too_large,
        table_lengths, longest_tables, lut8_tables_in_place_of_lengths, exact_sizes, two_element_faults, faults_of_all_layers,
        reserved_bytes, overlapping_elements, matrix_or_not, odd_places, lut8_entries,
    ),
    "stages": (
        curve_ends, curve_entries, bent_curve, curve_steepness, curves_of_channels, matrix_halves, matrix_held, matrix_extremes,
        matrix_whole_numbers, matrix_steepness, lattice_corners, lattice_order, lattice_orders_of_channels, lattice_on_nodes,
        lattice_last_nodes, lattice_of_four_channels, four_channels_rounded_once, largest_sums, lattice_steepness,
    ),
    "chains": (
        chain_lengths, chains_of_every_length, long_chains_that_do_not_fit, there_and_back, faults_at_positions, misfits,
        misfits_of_equal_channels, fault_and_misfit, mixed_types, joined_errors, joined_steepness,
    ),
    "converter": (
        begin_grids, begin_tables, fill_budgets, filled_in_parts, node_counts, begin_again, begin_refusals, fill_refusals,
        row_refusals, write_refusals, quote_and_drop, lent_tables, rows_of_kinds, row_lengths, samples_of_kinds, written_links,
        largest_link, links_past_two_bytes, link_errors, link_errors_without_steepness, largest_row_errors,
        converters_over_chains, seeds,
    ),
    "no requests": (
        plain_requests, unknown_words, missing_tokens, surplus_tokens, wrong_spaces, signs, leading_zeros, largest_numbers,
        no_numbers, counts_out_of_range, coefficients_out_of_range, samples_out_of_range, shapes_out_of_range, wrong_tags,
        hexadecimal_digits, lengths_out_of_range, wrong_kinds_and_letters, whole_line_first,
    ),
}


def lines():
    """All lines, group by group."""
    for group in GROUPS.values():
        for part in group:
            yield from part()
