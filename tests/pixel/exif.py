#!/usr/bin/env python3
"""tests/pixel/exif.py write FOLDER    writes the picture for ImageMagick and the heads for our reader
tests/pixel/exif.py compare FOLDER  holds our lists, numbers and traces to what ImageMagick shows of the picture
tests/pixel/exif.py planted FOLDER  the same with the answers of two orientations exchanged, which must be found

FOLDER gets picture.ppm and heads; a comparison needs also tif-N.ppm and jpg-N.ppm, which ImageMagick makes of the picture
with orientation N, and lists and chains, which still_exif.c prints. Heads: the picture as a `jpeg` item with each chain of
at most three `irot` and `imir`, essential. The transforms that are given for an orientation are one of these chains."""

import itertools
import os
import struct
import sys

WIDE, HIGH = 5, 3  # not square, and a colour of its own for each pixel: its eight orientations are eight pictures
REDS, GREENS = (0, 64, 128, 192, 255), (0, 128, 255)
KINDS = {1: "irot", 2: "imir"}
TRANSFORMS = [(1, k) for k in range(4)] + [(2, k) for k in range(2)]
CHAINS = [chain for length in range(4) for chain in itertools.product(TRANSFORMS, repeat=length)]
NUMBERS = range(1, 9)
# The side of the flat square that stands for a pixel: JPEG keeps colours only about, and codes in blocks of 8.
SIDES = {"tif": 1, "jpg": 16}
EXCHANGED = ((6, 8), (5, 7))


def box(kind, *parts):
    body = b"".join(parts)
    return struct.pack(">I4s", 8 + len(body), kind) + body


def full(kind, version, *parts):
    return box(kind, struct.pack(">I", version << 24), *parts)


def properties(chain):
    """`ispe`, then the transforms, each a box of its own and essential."""
    boxes = [full(b"ispe", 0, struct.pack(">II", WIDE, HIGH))]
    boxes += [box(KINDS[kind].encode(), bytes([value])) for kind, value in chain]
    named = bytes([1]) + bytes(128 + 2 + k for k in range(len(chain)))
    ipma = full(b"ipma", 0, struct.pack(">IHB", 1, 1, len(named)), named)
    return box(b"iprp", box(b"ipco", *boxes), ipma)


def head(chain):
    """A whole file: one `jpeg` item, whose bytes are the content of `mdat`, one byte."""
    ftyp = box(b"ftyp", b"mif1", bytes(4), b"mif1")

    def meta(at):
        infe = full(b"infe", 2, struct.pack(">HH4sB", 1, 0, b"jpeg", 0))
        return full(
            b"meta",
            0,
            full(b"hdlr", 0, bytes(4), b"pict", bytes(13)),
            full(b"pitm", 0, struct.pack(">H", 1)),
            full(b"iinf", 0, struct.pack(">H", 1), infe),
            full(b"iloc", 0, struct.pack(">BBHHHHII", 0x44, 0, 1, 1, 0, 1, at, 1)),
            properties(chain),
        )

    return ftyp + meta(len(ftyp) + len(meta(0)) + 8) + box(b"mdat", bytes(1))


def write(folder):
    with open(os.path.join(folder, "picture.ppm"), "wb") as file:
        file.write(b"P6\n%d %d\n255\n" % (WIDE, HIGH))
        file.write(b"".join(bytes([red, green, 128]) for green in GREENS for red in REDS))
    with open(os.path.join(folder, "heads"), "wb") as file:
        for chain in CHAINS:
            data = head(chain)
            file.write(b"%d\n" % len(data) + data)


def nearest(values, value):
    return min(range(len(values)), key=lambda k: abs(values[k] - value))


def shown(folder, form, number):
    """The rows of the picture that ImageMagick made: for each pixel x and y in the picture without orientation."""
    with open(os.path.join(folder, "%s-%d.ppm" % (form, number)), "rb") as file:
        kind, size, most, data = file.read().split(b"\n", 3)
    wide, high = map(int, size.split())
    side = SIDES[form]
    if kind != b"P6" or most != b"255" or len(data) != 3 * wide * high or wide % side or high % side:
        sys.exit("%s-%d.ppm is not as expected" % (form, number))
    middles = [[3 * (y * wide + x) for x in range(side // 2, wide, side)] for y in range(side // 2, high, side)]
    return [[(nearest(REDS, data[at]), nearest(GREENS, data[at + 1])) for at in row] for row in middles]


def traced(numbers):
    """The same from our reader: its number, and the rows that size and traces give; None for what was refused."""
    refused, number, no_size, wide, high, *traces = numbers
    points = [None if traces[k] else tuple(traces[k + 1 : k + 3]) for k in range(0, len(traces), 3)]
    rows = [] if no_size else [points[y * wide : y * wide + wide] for y in range(high)]
    return None if refused else number, rows


def lines(folder, name):
    with open(os.path.join(folder, name)) as file:
        return [[int(word) for word in line.split()] for line in file]


def listed(numbers):
    """The chain that still_transforms gives; None for a refusal, or what is no list."""
    refused, _, count, *values = numbers
    return None if refused or count > 2 else tuple(zip(values[0 : 2 * count : 2], values[1 : 2 * count : 2]))


def differing(left, right):
    """How many pixels of two pictures differ: all of the larger one where the sizes do."""
    if [len(row) for row in left] != [len(row) for row in right]:
        return max(sum(len(row) for row in left), sum(len(row) for row in right))
    return sum(a != b for one, other in zip(left, right) for a, b in zip(one, other))


class Comparison:
    """What ImageMagick shows, and what was answered. Faults are kept by the orientation or the chain that has them."""

    def __init__(self, folder):
        self.shown = {form: {n: shown(folder, form, n) for n in NUMBERS} for form in SIDES}
        self.lists = dict(zip(NUMBERS, map(listed, lines(folder, "lists")), strict=True))
        self.answers = dict(zip(CHAINS, map(traced, lines(folder, "chains")), strict=True))
        self.faults, self.pixels = {}, 0
        self.must_be_eight()

    def must_be_eight(self):
        """Otherwise agreement would say little."""
        for form, pictures in self.shown.items():
            if any(not differing(pictures[a], pictures[b]) for a, b in itertools.combinations(NUMBERS, 2)):
                sys.exit("ImageMagick shows two orientations of the %s file alike" % form)

    def fault(self, of, words):
        self.faults.setdefault(of, []).append(words)

    def hold(self, of, number, rows):
        """A traced picture to those that ImageMagick shows for that number."""
        for form, pictures in self.shown.items():
            self.pixels += sum(len(row) for row in pictures[number])
            differ = differing(pictures[number], rows)
            if differ:
                self.fault(of, "%d pixels are not as in the %s file of orientation %d" % (differ, form, number))

    def hold_list(self, number):
        chain = self.lists[number]
        if chain not in self.answers:
            return self.fault(number, "refused, or no list of irot and imir")
        told, rows = self.answers[chain]
        self.hold(number, number, rows)
        if told != number:
            self.fault(number, "comes back as %s" % told)
        shorter = any(len(other) < len(chain) and self.answers[other][1] == rows for other in CHAINS)
        if shorter or [kind for kind, _ in chain] not in ([], [1], [2], [1, 2]):
            self.fault(number, "not the shortest list with irot first")

    def hold_chain(self, chain):
        told, rows = self.answers[chain]
        if told not in NUMBERS:
            return self.fault(chain, "refused, or no orientation")
        self.hold(chain, told, rows)

    def hold_all(self):
        for number in NUMBERS:
            self.hold_list(number)
        for chain in CHAINS:
            self.hold_chain(chain)

    def exchange_lists(self, a, b):
        """As if still_transforms took two orientations for each other. Gives what must be found."""
        self.lists[a], self.lists[b] = self.lists[b], self.lists[a]
        return {a, b}

    def exchange_numbers(self, a, b):
        """The same of still_orientation."""
        taken = {a: b, b: a}
        wrong = {chain for chain in CHAINS if self.answers[chain][0] in taken}
        self.answers = {chain: (taken.get(told, told), rows) for chain, (told, rows) in self.answers.items()}
        return wrong | {a, b}


def words_of(what):
    if what in NUMBERS:
        return "orientation %d" % what
    return ", ".join("%s %d" % (KINDS[kind], value) for kind, value in what) or "no transforms"


def compare(folder):
    it = Comparison(folder)
    it.hold_all()
    for of, faults in it.faults.items():
        print("%s: %s" % (words_of(of), "; ".join(faults)))
    print("exif: %d orientations, %d chains, %d pixels, %d differ" % (len(NUMBERS), len(CHAINS), it.pixels, len(it.faults)))
    return len(it.faults) > 0


def planted(folder):
    """Exactly what was made wrong must be found."""
    found = missed = 0
    for (a, b), name in itertools.product(EXCHANGED, ("exchange_lists", "exchange_numbers")):
        it = Comparison(folder)
        wrong = getattr(it, name)(a, b)
        it.hold_all()
        right = it.faults.keys() == wrong
        found, missed = found + right, missed + (not right)
        print("planted: %s %d and %d: %d made wrong, %d found" % (name.replace("_", " "), a, b, len(wrong), len(it.faults)))
    print("exif: %d mistakes found, %d missed" % (found, missed))
    return missed > 0


if __name__ == "__main__":
    sys.exit({"write": write, "compare": compare, "planted": planted}[sys.argv[1]](sys.argv[2]))
