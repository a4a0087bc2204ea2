#!/usr/bin/env python3
"""Makes images.txt: images that the library cbor2 encodes, each with its expected lines. Run by hand, with cbor2 at hand; the same images each time.

A line of images.txt has the image in hex and then the lines of its text, with a space before each.
"""
import os
import random
import struct
import sys

import cbor2

LEAST, MOST = -1 << 63, (1 << 63) - 1
# Both sides of each width of a head, and both ends.
EDGES = sorted({n for w in (5, 8, 16, 32, 63) for n in ((1 << w) - 1, 1 << w) if n <= MOST} | {0, 1, 10, 23, 24, 25, 100, 1000, 1000000})
COUNTS = EDGES + [-1 - n for n in EDGES]
# Zero of either sign, subnormal ends, the least normal, one, its neighbours, the largest; and everyday ones.
BITS = [0x0000000000000000, 0x8000000000000000, 0x0000000000000001, 0x8000000000000001, 0x000FFFFFFFFFFFFF, 0x0010000000000000, 0x3FEFFFFFFFFFFFFF,
        0x3FF0000000000000, 0x3FF0000000000001, 0xBFF0000000000000, 0x7FEFFFFFFFFFFFFF, 0xFFEFFFFFFFFFFFFF, 0x3FF8000000000000, 0x40091EB851EB851F]
NUMBERS = [0, 1, 22, 23, 24, 25, 254, 255, 256, 257, 65534, 65535, 65536, 999999, 1000000]


def measured(bits):
    return struct.unpack('>d', bits.to_bytes(8, 'big'))[0]


def some_cell(chance):
    kind = chance.randrange(8)
    if kind == 0:
        return None
    if kind <= 2:
        return chance.choice(COUNTS)
    if kind <= 4:
        n = chance.getrandbits(chance.randrange(1, 64))
        return -1 - n if chance.getrandbits(1) else n
    if kind == 5:
        return measured(chance.choice(BITS))
    while True:
        bits = chance.getrandbits(64)
        if bits >> 52 & 0x7FF != 0x7FF:
            return measured(bits)


def some_number(chance):
    return chance.choice(NUMBERS) if chance.getrandbits(1) else chance.randrange(1000001)


def sheets():
    """Cells and numbers: each edge by itself, then the largest and the smallest, then by chance every number of cells and of devices."""
    yield [None], [0]
    for n in range(0, len(COUNTS), 4):
        yield COUNTS[n:n + 4], [1]
    yield [measured(b) for b in BITS], [2]
    for n in range(0, len(NUMBERS), 5):
        yield [None], NUMBERS[n:n + 5]
    yield [None] * 64, [0] * 8
    yield [MOST] * 64, [1000000] * 8
    yield [LEAST] * 64, [1000000] * 8
    yield [measured(0xBFE0000000000000)] * 64, [1000000] * 8
    chance = random.Random(8949)
    for cells in range(1, 65):
        devices = 1 + cells % 8
        yield [some_cell(chance) for _ in range(cells)], [some_number(chance) for _ in range(devices)]
    for _ in range(40):
        yield [some_cell(chance) for _ in range(chance.randrange(1, 8))], [some_number(chance) for _ in range(chance.randrange(1, 9))]


def line_of(cell):
    if cell is None:
        return 'blank'
    if isinstance(cell, int):
        return 'count,%d' % cell
    return 'measure,' + struct.pack('>d', cell).hex().upper()


def main():
    path = os.path.join(os.path.dirname(os.path.abspath(sys.argv[0])), 'images.txt')
    with open(path, 'w', encoding='ascii') as out:
        for cells, numbers in sheets():
            image = cbor2.dumps([cells, numbers])
            assert len(image) <= 620
            print(image.hex(), *map(line_of, cells), *('number,%d' % n for n in numbers), file=out)


main()
