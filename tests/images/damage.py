"""Damaged images and damaged texts, made by chance from whole ones; the same ones for the same seed."""
from strict import WIDTHS, head, head_of, walk

OTHER = [bytes.fromhex(h) for h in ('F4', 'F5', 'F7', 'F0', 'F8FF', 'F93C00', 'FA3FC00000', '40', '4101', '60', '6161', '80', 'A0', 'C100', 'D81800', '1C', '3D', '5F', '7F', 'FF', 'FE')]
ENDLESS = [bytes.fromhex('FB' + h) for h in ('7FF0000000000000', 'FFF0000000000000', '7FF8000000000000', '7FF0000000000001', 'FFFFFFFFFFFFFFFF')]
BEYOND = [bytes.fromhex(h) for h in ('1B8000000000000000', '1BFFFFFFFFFFFFFFFF', '3B8000000000000000', '3BFFFFFFFFFFFFFFFF')]
NO_NUMBER = [bytes.fromhex(h) for h in ('1A000F4241', '1AFFFFFFFF', '1B0000000100000000', '1B7FFFFFFFFFFFFFFF', '20', '3903E7', 'F6', 'FB3FF0000000000000')]


class Parts:
    """An image taken apart: its heads and elements, and which of these are cells and numbers."""

    def __init__(self, image):
        lines, places = walk(image)
        ends = places[1:] + [len(image)]
        self.parts = [image[a:e] for a, e in zip(places, ends)]
        cells = sum(not line.startswith('number') for line in lines)
        self.cells = range(2, 2 + cells)
        self.numbers = range(3 + cells, len(self.parts))
        self.devices_head = 2 + cells

    def with_part(self, i, part):
        return b''.join(self.parts[:i] + [part] + self.parts[i + 1:])

    def with_sheet(self, cells, numbers):
        return b''.join([head_of(4, 2), head_of(4, len(cells)), *cells, head_of(4, len(numbers)), *numbers])

    def of(self, places):
        return [self.parts[i] for i in places]


def changed(image, at, byte):
    return image[:at] + bytes([byte]) + image[at + 1:]


def longer_head(chance, p):
    """One head in a width that it does not need."""
    places = [i for i, part in enumerate(p.parts) if part[0] < 0xA0 and part[0] & 31 < 27]
    i = chance.choice(places)
    major, argument, _ = head(p.parts[i], 0)
    info = chance.choice([w for w in WIDTHS if w > (p.parts[i][0] & 31)])
    return p.with_part(i, bytes([major << 5 | info]) + argument.to_bytes(WIDTHS[info], 'big'))


def endless(chance, p):
    """An array without its length."""
    i = chance.choice([0, 1, p.devices_head])
    end = {0: len(p.parts), 1: p.devices_head, p.devices_head: len(p.parts)}[i]
    return b''.join(p.parts[:i] + [b'\x9f'] + p.parts[i + 1:end] + [b'\xff'] + p.parts[end:])


def repeated(parts, n):
    return [parts[i % len(parts)] for i in range(n)]


IMAGES = {
    'cut': lambda c, b, p: b[:c.randrange(len(b))],
    'lengthened': lambda c, b, p: b + bytes(c.getrandbits(8) for _ in range(c.randrange(1, 5))),
    'much longer': lambda c, b, p: b + bytes(4200),
    'twice': lambda c, b, p: b + b,
    'a byte changed': lambda c, b, p: changed(b, c.randrange(len(b)), c.getrandbits(8)),
    'an early byte changed': lambda c, b, p: changed(b, c.randrange(min(6, len(b))), c.getrandbits(8)),
    'a bit flipped': lambda c, b, p: (lambda i: changed(b, i, b[i] ^ 1 << c.randrange(8)))(c.randrange(len(b))),
    'a byte lost': lambda c, b, p: (lambda i: b[:i] + b[i + 1:])(c.randrange(len(b))),
    'a byte put in': lambda c, b, p: (lambda i: b[:i] + bytes([c.getrandbits(8)]) + b[i:])(c.randrange(len(b))),
    'two bytes exchanged': lambda c, b, p: (lambda i: b[:i] + b[i:i + 2][::-1] + b[i + 2:])(c.randrange(len(b) - 1)),
    'a longer head': lambda c, b, p: longer_head(c, p),
    'another head for a cell': lambda c, b, p: p.with_part(c.choice(p.cells), c.choice(OTHER)),
    'another head for a number': lambda c, b, p: p.with_part(c.choice(p.numbers), c.choice(OTHER)),
    'another head for an array': lambda c, b, p: p.with_part(c.choice([0, 1, p.devices_head]), c.choice(OTHER)),
    'an array without its length': lambda c, b, p: endless(c, p),
    'an array of another length': lambda c, b, p: (lambda i: p.with_part(i, head_of(4, c.randrange(70))))(c.choice([0, 1, p.devices_head])),
    'no cells': lambda c, b, p: p.with_sheet([], p.of(p.numbers)),
    'no devices': lambda c, b, p: p.with_sheet(p.of(p.cells), []),
    '65 cells': lambda c, b, p: p.with_sheet(repeated(p.of(p.cells), 65), p.of(p.numbers)),
    '64 cells': lambda c, b, p: p.with_sheet(repeated(p.of(p.cells), 64), p.of(p.numbers)),
    'nine devices': lambda c, b, p: p.with_sheet(p.of(p.cells), repeated(p.of(p.numbers), 9)),
    'eight devices': lambda c, b, p: p.with_sheet(p.of(p.cells), repeated(p.of(p.numbers), 8)),
    'no number of pushes': lambda c, b, p: p.with_part(c.choice(p.numbers), c.choice(NO_NUMBER)),
    'a count past 64 bits': lambda c, b, p: p.with_part(c.choice(p.cells), c.choice(BEYOND)),
    'a count of any argument': lambda c, b, p: p.with_part(c.choice(p.cells), head_of(c.getrandbits(1), c.getrandbits(c.randrange(60, 65)))),
    'an infinity or a NaN': lambda c, b, p: p.with_part(c.choice(p.cells), c.choice(ENDLESS)),
    'a measured number of any bits': lambda c, b, p: p.with_part(c.choice(p.cells), b'\xfb' + (c.getrandbits(1) << 63 | c.randrange(0x7F0, 0x800) << 52 | c.getrandbits(52)).to_bytes(8, 'big')),
    'a third array': lambda c, b, p: head_of(4, 3) + b[1:] + b'\x80',
    'numbers before cells': lambda c, b, p: p.with_sheet(p.of(p.numbers), p.of(p.cells)),
    'one array': lambda c, b, p: head_of(4, 1) + b''.join(p.parts[1:p.devices_head]),
    'any bytes': lambda c, b, p: bytes(c.getrandbits(8) for _ in range(c.randrange(12))),
}


def with_line(chance, lines, *choices):
    """A line replaced by one of these."""
    i = chance.randrange(len(lines))
    return lines[:i] + [chance.choice(choices)] + lines[i + 1:]


def whole(lines):
    return b''.join(line + b'\r\n' for line in lines)


def cells_in(lines):
    return [line for line in lines if not line.startswith(b'number')]


def numbers_in(lines):
    return [line for line in lines if line.startswith(b'number')]


TEXTS = {
    'cut': lambda c, t, l: t[:c.randrange(len(t))],
    'without the last end': lambda c, t, l: t[:-2],
    'without the last LF': lambda c, t, l: t[:-1],
    'LF alone': lambda c, t, l: t.replace(b'\r\n', b'\n'),
    'one LF alone': lambda c, t, l: t.replace(b'\r\n', b'\n', 1),
    'a byte changed': lambda c, t, l: changed(t, c.randrange(len(t)), c.getrandbits(8)),
    'a digit changed': lambda c, t, l: (lambda i: changed(t, i, c.choice(b'0123456789ABCDEFabcdef-+., ')))(c.choice([i for i, x in enumerate(t) if x in b'0123456789ABCDEF'])),
    'a bit flipped': lambda c, t, l: (lambda i: changed(t, i, t[i] ^ 1 << c.randrange(8)))(c.randrange(len(t))),
    'a byte lost': lambda c, t, l: (lambda i: t[:i] + t[i + 1:])(c.randrange(len(t))),
    'a byte put in': lambda c, t, l: (lambda i: t[:i] + bytes([c.getrandbits(8)]) + t[i:])(c.randrange(len(t) + 1)),
    'an empty line': lambda c, t, l: (lambda i: whole(l[:i] + [b''] + l[i:]))(c.randrange(len(l) + 1)),
    'two lines exchanged': lambda c, t, l: (lambda i: whole(l[:i] + l[i:i + 2][::-1] + l[i + 2:]))(c.randrange(len(l))),
    'a line lost': lambda c, t, l: (lambda i: whole(l[:i] + l[i + 1:]))(c.randrange(len(l))),
    'a line twice': lambda c, t, l: (lambda i: whole(l[:i + 1] + l[i:]))(c.randrange(len(l))),
    'another count': lambda c, t, l: whole(with_line(c, l, b'count,-0', b'count,00', b'count,01', b'count,+1', b'count,', b'count', b'count,1,', b'count,9223372036854775808', b'count,-9223372036854775809', b'count,18446744073709551616', b'count, 1', b'Count,1', b'count,-9223372036854775808', b'count,9223372036854775807')),
    'another measured number': lambda c, t, l: whole(with_line(c, l, b'measure,7FF0000000000000', b'measure,FFF0000000000000', b'measure,7FF8000000000000', b'measure,3ff8000000000000', b'measure,3FF800000000000', b'measure,03FF8000000000000', b'measure,', b'measure', b'measure,3FF8000000000000,', b'measure,7FEFFFFFFFFFFFFF')),
    'another number': lambda c, t, l: whole(with_line(c, l, b'number,1000001', b'number,-1', b'number,00', b'number,', b'number', b'number,1,2', b'number,1000000', b'Number,0', b'number,1e3')),
    'another line': lambda c, t, l: whole(with_line(c, l, b'add,1', b'done', b'yes', b'refused,12', b'"blank"', b'blank,', b'blank,0', b' blank', b'blank ', b'BLANK', b'moved,1', b'x' * 81, b'count,' + b'0' * 90, b'blank')),
    '65 cells': lambda c, t, l: whole(repeated(cells_in(l), 65) + numbers_in(l)),
    '64 cells': lambda c, t, l: whole(repeated(cells_in(l), 64) + numbers_in(l)),
    'nine numbers': lambda c, t, l: whole(cells_in(l) + repeated(numbers_in(l), 9)),
    'no cells': lambda c, t, l: whole(numbers_in(l)),
    'no numbers': lambda c, t, l: whole(cells_in(l)),
    'much longer': lambda c, t, l: t + b'blank\r\n' * 600,
}
