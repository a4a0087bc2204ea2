"""A strict reader of stored images and of their texts, written from document 01 and, for the text, docs/DECISIONS.md alone: the judge of tests/images/compare."""
import re

BLANK, FLOAT, CELLS, DEVICES, PUSHES = 0xF6, 0xFB, 64, 8, 1000000
WIDTHS = {24: 1, 25: 2, 26: 4, 27: 8}


class Refused(Exception):
    """The bytes, or the text, are no image's."""


def head(image, at):
    """The head at a place: its major type, its argument, the place behind it. Definite lengths, shortest heads."""
    if at >= len(image):
        raise Refused('cut')
    major, info = image[at] >> 5, image[at] & 31
    if info < 24:
        return major, info, at + 1
    if info not in WIDTHS:
        raise Refused('no length, or a reserved head')
    end = at + 1 + WIDTHS[info]
    if end > len(image):
        raise Refused('cut in a head')
    argument = int.from_bytes(image[at + 1:end], 'big')
    least = {24: 24, 25: 1 << 8, 26: 1 << 16, 27: 1 << 32}[info]
    if argument < least:
        raise Refused('longer head than needed')
    return major, argument, end


def array(image, at, low, high):
    major, n, at = head(image, at)
    if major != 4 or not low <= n <= high:
        raise Refused('no array of this length')
    return n, at


def is_finite(bits):
    return bits >> 52 & 0x7FF != 0x7FF


def cell(image, at):
    """The cell at a place, as its line of text, and the place behind it."""
    if at >= len(image):
        raise Refused('cut')
    if image[at] == BLANK:
        return 'blank', at + 1
    if image[at] == FLOAT:
        bits = int.from_bytes(image[at + 1:at + 9], 'big')
        if at + 9 > len(image) or not is_finite(bits):
            raise Refused('cut, or not finite')
        return 'measure,%016X' % bits, at + 9
    major, argument, at = head(image, at)
    if major > 1 or argument >= 1 << 63:
        raise Refused('no count of 64 bits')
    return 'count,%d' % (argument if major == 0 else -1 - argument), at


def number(image, at):
    major, argument, at = head(image, at)
    if major != 0 or argument > PUSHES:
        raise Refused('no number of pushes')
    return 'number,%d' % argument, at


def walk(image):
    """The lines of an image, and the places where its heads and cells begin."""
    places, lines = [0], []
    _, at = array(image, 0, 2, 2)
    for most, element in (CELLS, cell), (DEVICES, number):
        places.append(at)
        n, at = array(image, at, 1, most)
        for _ in range(n):
            places.append(at)
            line, at = element(image, at)
            lines.append(line)
    if at != len(image):
        raise Refused('trailing bytes')
    return lines, places


def text_of(image):
    """What `imager read` prints of an image."""
    return ''.join(line + '\r\n' for line in walk(image)[0]).encode()


def head_of(major, argument):
    if argument < 24:
        return bytes([major << 5 | argument])
    for info, width in WIDTHS.items():
        if argument < 1 << 8 * width:
            return bytes([major << 5 | info]) + argument.to_bytes(width, 'big')
    raise Refused('an argument of more than 64 bits')


DECIMAL = re.compile(rb'0|-?[1-9][0-9]*')


def element_of(line):
    """The bytes of a line: whether it is a number's, and its element of an array."""
    word, comma, rest = line.partition(b',')
    if line == b'blank':
        return False, bytes([BLANK])
    if word == b'measure' and re.fullmatch(rb'[0-9A-F]{16}', rest) and is_finite(int(rest, 16)):
        return False, bytes([FLOAT]) + int(rest, 16).to_bytes(8, 'big')
    if comma and DECIMAL.fullmatch(rest):
        n = int(rest)
        if word == b'count' and -1 << 63 <= n < 1 << 63:
            return False, head_of(0, n) if n >= 0 else head_of(1, -1 - n)
        if word == b'number' and 0 <= n <= PUSHES:
            return True, head_of(0, n)
    raise Refused('no line of an image')


def image_of(text):
    """What `imager write` makes of a text: each line ends with CR LF, cells' lines first."""
    *lines, rest = text.split(b'\r\n')
    if rest:
        raise Refused('a line without its end')
    elements = [element_of(line) for line in lines]
    kinds = [is_number for is_number, _ in elements]
    cells, numbers = kinds.count(False), kinds.count(True)
    if kinds != sorted(kinds) or not 1 <= cells <= CELLS or not 1 <= numbers <= DEVICES:
        raise Refused('not cells and then numbers, or too few or too many of them')
    parts = [element for _, element in elements]
    return b''.join([head_of(4, 2), head_of(4, cells), *parts[:cells], head_of(4, numbers), *parts[cells:]])
