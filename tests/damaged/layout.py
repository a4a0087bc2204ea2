"""The lent table as docs/TABLE.md gives it: which contents are a table, what a table says, and the words of what it says.

Written from docs/TABLE.md and document 01 alone. The logic is the second program's (tests/second/model.py): `read` makes its Sheet of the words of a table,
and `lay` puts the words of a Sheet over words, those in use alone.
"""
import os
import sys

sys.dont_write_bytecode = True
sys.path.insert(0, os.path.join(os.path.dirname(os.path.abspath(__file__)), '..', 'second'))
import model

MASK = (1 << 64) - 1
MOST_DEVICES, MOST_CELLS, MOST_PUSHES, QUEUE = 8, 64, 1_000_000, 8
DEVICES, CELLS, SHEET, RECORDS, RECORD = 0, 1, 2, 130, 3690
LAST, TAKEN, CHANNEL, REQUEST, CONNECTION, COVERED, PENDING_LENGTH, WAITING_LENGTH, ITEMS_LENGTH = range(9)
KNOWN, TRANSACTION, BUFFERED, RECEIVED, PENDING, WAITING, ITEMS = 9, 137, 265, 393, 530, 1562, 2594
ROUND, ROUND_CHANGES, ITEM, ITEM_NUMBERS, ITEM_PLACES = 129, 1, 137, 1, 9
PREFIX, SEGMENT = 1, 2
NO_CHANNEL, ASKED, ESTABLISHED = range(3)
NONE, LIVE, STALE = range(3)
SINGLES = {LAST: MOST_PUSHES, TAKEN: MOST_PUSHES, CHANNEL: ESTABLISHED, REQUEST: 1, CONNECTION: STALE, COVERED: MOST_PUSHES,
           PENDING_LENGTH: QUEUE, WAITING_LENGTH: QUEUE, ITEMS_LENGTH: QUEUE}
SINGLE_NAMES = {LAST: 'last', TAKEN: 'taken', CHANNEL: 'channel', REQUEST: 'request', CONNECTION: 'connection', COVERED: 'covered',
                PENDING_LENGTH: 'pending length', WAITING_LENGTH: 'waiting length', ITEMS_LENGTH: 'items length'}


def need(devices):
    return RECORDS + RECORD * devices


def record(d):
    return RECORDS + RECORD * d


def round_at(queue, d, j):
    return record(d) + queue + ROUND * j


def item_at(d, j):
    return record(d) + ITEMS + ITEM * j


def finite(bits):
    return bits >> 52 & 2047 != 2047


def cell_faults(words, at, cells, where, faults):
    for kind, payload in zip(words[at:at + 2 * cells:2], words[at + 1:at + 2 * cells:2]):
        if kind > 2:
            faults.add(f'{where}: kind of a cell')
        elif kind == 0 and payload:
            faults.add(f'{where}: payload of blank')
        elif kind == 2 and not finite(payload):
            faults.add(f'{where}: not finite')


def change_faults(words, at, cells, where, faults):
    for kind, payload in zip(words[at:at + 2 * cells:2], words[at + 1:at + 2 * cells:2]):
        if kind > 4:
            faults.add(f'{where}: kind of a change')
        elif kind == 0 and payload:
            faults.add(f'{where}: payload of nothing')
        elif kind == 1 and payload:
            faults.add(f'{where}: payload of a set to blank')
        elif kind == 3 and not finite(payload):
            faults.add(f'{where}: not finite')


def item_faults(words, at, devices, cells, where, faults):
    kind = words[at]
    if kind not in (PREFIX, SEGMENT):
        faults.add(f'{where}: kind of an item')
        return
    for number in words[at + ITEM_NUMBERS:at + ITEM_NUMBERS + devices]:
        if number > MOST_PUSHES + 1:
            faults.add(f'{where}: number of an item')
        elif kind == PREFIX and number == 0:
            faults.add(f'{where}: no number in a prefix')
    (cell_faults if kind == PREFIX else change_faults)(words, at + ITEM_PLACES, cells, where, faults)


def range_faults(words, d, devices, cells):
    """Words in use of a device's record that are out of range."""
    r, faults = record(d), set()
    for word, most in SINGLES.items():
        if words[r + word] > most:
            faults.add(f'range: {SINGLE_NAMES[word]}')
    if faults:
        return faults
    cell_faults(words, r + KNOWN, cells, 'known', faults)
    change_faults(words, r + TRANSACTION, cells, 'transaction', faults)
    change_faults(words, r + BUFFERED, cells, 'push buffer', faults)
    if words[r + RECEIVED]:
        item_faults(words, r + RECEIVED, devices, cells, 'receive buffer', faults)
    for queue, length, where in ((PENDING, PENDING_LENGTH, 'pending'), (WAITING, WAITING_LENGTH, 'waiting')):
        for j in range(words[r + length]):
            change_faults(words, round_at(queue, d, j) + ROUND_CHANGES, cells, where, faults)
    for j in range(words[r + ITEMS_LENGTH]):
        item_faults(words, item_at(d, j), devices, cells, 'items', faults)
    return faults


def round_faults(words, d):
    """Conditions 1 to 3: the numbers of a device's rounds."""
    r, faults = record(d), set()
    last, taken, covered, pendings, waitings = (words[r + k] for k in (LAST, TAKEN, COVERED, PENDING_LENGTH, WAITING_LENGTH))
    pending = [words[round_at(PENDING, d, j)] for j in range(pendings)]
    waiting = [words[round_at(WAITING, d, j)] for j in range(waitings)]
    if pending and pending[0] == 0:
        faults.add('1: a pending number is 0')
    if any(a >= b for a, b in zip(pending, pending[1:])):
        faults.add('1: pending numbers rise')
    if any(number > last for number in pending):
        faults.add('1: a pending number passes the last push')
    if covered and any(number == last for number in pending):
        faults.add('1: a pending number is the last push with a push buffered')
    if taken > last:
        faults.add('2: the taken number passes the last push')
    if covered > last:
        faults.add('2: more pushes covered than made')
    if waitings > pendings:
        faults.add('3: more rounds wait than are pending')
    elif waiting != pending[pendings - waitings:]:
        faults.add('3: waiting numbers are those of the last pending rounds')
    return faults


def link_faults(words, d):
    """Conditions 4 to 9: a device's channel, its request, its connection, and what waits."""
    r, faults = record(d), set()
    channel, request, connection, waitings, items = (words[r + k] for k in (CHANNEL, REQUEST, CONNECTION, WAITING_LENGTH, ITEMS_LENGTH))
    kinds = [words[item_at(d, j)] for j in range(items)]
    if connection != STALE and channel != ESTABLISHED and waitings:
        faults.add('4: a round waits on a channel not established')
    if request and channel != ASKED:
        faults.add('5: a request without such a channel')
    if request and items:
        faults.add('5: a request beside items')
    if channel == NO_CHANNEL and items:
        faults.add('6: items without a channel')
    if channel == NO_CHANNEL and connection == LIVE:
        faults.add('6: a live connection without a channel')
    for j, kind in enumerate(kinds):
        first = j == 0 and channel == ASKED
        if first and kind == SEGMENT:
            faults.add('7: a segment first on an asked channel')
        if not first and kind == PREFIX:
            faults.add('7: a prefix in another place')
    if channel == ASKED and connection == LIVE and not items:
        faults.add('8: no item on an asked channel with a live connection')
    if channel == ESTABLISHED and connection == STALE:
        faults.add('9: a stale connection beside an established channel')
    return faults


def condition_faults(words, d):
    """The numbered conditions of docs/TABLE.md that the record of device d breaks, where its single words are in range."""
    return round_faults(words, d) | link_faults(words, d)


def faults(words):
    """What is wrong with contents, as names; a table has none. Where single words are out of range the rest of the record is not judged."""
    if len(words) < 2:
        return {'length'}
    devices, cells, found = words[DEVICES], words[CELLS], set()
    if not 1 <= devices <= MOST_DEVICES:
        found.add('header: devices')
    if not 1 <= cells <= MOST_CELLS:
        found.add('header: cells')
    if found:
        return found
    if len(words) < need(devices):
        return {'length'}
    cell_faults(words, SHEET, cells, 'server sheet', found)
    for d in range(devices):
        bad = range_faults(words, d, devices, cells)
        found |= bad
        if not any(name.startswith('range') for name in bad):
            found |= condition_faults(words, d)
    return found


def signed(word):
    return word - (1 << 64) if word >> 63 else word


def read_cell(kind, payload):
    if kind == 0:
        return None
    return ('count', signed(payload)) if kind == 1 else ('measure', payload)


def read_sheet(words, at, cells):
    return [read_cell(words[at + 2 * c], words[at + 2 * c + 1]) for c in range(cells)]


def read_change(words, at, cells):
    delta = {}
    for c in range(cells):
        kind = words[at + 2 * c]
        if kind == 4:
            delta[c] = ('add', signed(words[at + 2 * c + 1]))
        elif kind:
            delta[c] = ('set', read_cell(kind - 1, words[at + 2 * c + 1]))
    return delta


def read_item(words, at, devices, cells):
    numbers = words[at + ITEM_NUMBERS:at + ITEM_NUMBERS + devices]
    if words[at] == PREFIX:
        return ('prefix', read_sheet(words, at + ITEM_PLACES, cells), [number - 1 for number in numbers])
    given = {d: number - 1 for d, number in enumerate(numbers) if number}
    return ('segment', read_change(words, at + ITEM_PLACES, cells), given)


def read_rounds(words, queue, d, length, cells):
    places = [round_at(queue, d, j) for j in range(length)]
    return [(words[at], read_change(words, at + ROUND_CHANGES, cells)) for at in places]


def read_device(words, d, table):
    r, device, cells = record(d), table.devices[d], table.cells
    device.known = read_sheet(words, r + KNOWN, cells)
    device.open = read_change(words, r + TRANSACTION, cells)
    device.push = read_change(words, r + BUFFERED, cells)
    device.last, device.covered = words[r + LAST], words[r + COVERED]
    device.pending = read_rounds(words, PENDING, d, words[r + PENDING_LENGTH], cells)
    if words[r + RECEIVED]:
        device.buffer = read_item(words, r + RECEIVED, table.n, cells)
    if words[r + CHANNEL] != NO_CHANNEL:
        device.channel = model.Channel()
        device.channel.established = words[r + CHANNEL] == ESTABLISHED
        device.channel.items = [read_item(words, item_at(d, j), table.n, cells) for j in range(words[r + ITEMS_LENGTH])]


def round_store(table, d):
    """The channel whose rounds stand in the record: the device's where it is established, else the one that the server holds, if any."""
    channel = table.devices[d].channel
    return channel if channel is not None and channel.established else table.held[d] or channel


def read(words):
    """The second program's Sheet of the words of a table."""
    table = model.Sheet(words[DEVICES], words[CELLS])
    table.sheet = read_sheet(words, SHEET, table.cells)
    for d in range(table.n):
        r = record(d)
        read_device(words, d, table)
        channel = table.devices[d].channel
        table.taken[d] = words[r + TAKEN]
        table.asked[d] = channel if words[r + REQUEST] else None
        table.held[d] = {NONE: None, LIVE: channel, STALE: model.Channel()}[words[r + CONNECTION]]
        rounds = read_rounds(words, WAITING, d, words[r + WAITING_LENGTH], table.cells)
        holder = round_store(table, d)
        if holder is not None:
            holder.rounds = rounds
    return table


def cell_words(cell):
    if cell is None:
        return 0, 0
    return (1, cell[1] & MASK) if cell[0] == 'count' else (2, cell[1])


def change_words(update):
    if update is None:
        return 0, 0
    if update[0] == 'add':
        return 4, update[1] & MASK
    kind, payload = cell_words(update[1])
    return kind + 1, payload


def lay_sheet(words, at, sheet):
    for c, cell in enumerate(sheet):
        words[at + 2 * c], words[at + 2 * c + 1] = cell_words(cell)


def lay_change(words, at, delta, cells):
    for c in range(cells):
        words[at + 2 * c], words[at + 2 * c + 1] = change_words(delta.get(c))


def lay_item(words, at, item, devices, cells):
    kind, places, numbers = item
    words[at] = PREFIX if kind == 'prefix' else SEGMENT
    for d in range(devices):
        number = numbers[d] if kind == 'prefix' else numbers.get(d)
        words[at + ITEM_NUMBERS + d] = 0 if number is None else number + 1
    if kind == 'prefix':
        lay_sheet(words, at + ITEM_PLACES, places)
    else:
        lay_change(words, at + ITEM_PLACES, places, cells)


def lay_rounds(words, queue, d, rounds, cells):
    for j, (number, delta) in enumerate(rounds):
        at = round_at(queue, d, j)
        words[at] = number
        lay_change(words, at + ROUND_CHANGES, delta, cells)


def lay_device(words, d, table):
    r, device, cells, held = record(d), table.devices[d], table.cells, table.held[d]
    channel = device.channel
    holder = round_store(table, d)
    waiting = holder.rounds if holder is not None else []
    items = channel.items if channel is not None else []
    words[r + LAST], words[r + TAKEN], words[r + COVERED] = device.last, table.taken[d], device.covered
    words[r + CHANNEL] = NO_CHANNEL if channel is None else ESTABLISHED if channel.established else ASKED
    words[r + REQUEST] = int(table.asked[d] is not None)
    words[r + CONNECTION] = NONE if held is None else LIVE if held is channel else STALE
    words[r + PENDING_LENGTH], words[r + WAITING_LENGTH], words[r + ITEMS_LENGTH] = len(device.pending), len(waiting), len(items)
    lay_sheet(words, r + KNOWN, device.known)
    lay_change(words, r + TRANSACTION, device.open, cells)
    lay_change(words, r + BUFFERED, device.push, cells)
    words[r + RECEIVED] = 0
    if device.buffer is not None:
        lay_item(words, r + RECEIVED, device.buffer, table.n, cells)
    lay_rounds(words, PENDING, d, device.pending, cells)
    lay_rounds(words, WAITING, d, waiting, cells)
    for j, item in enumerate(items):
        lay_item(words, item_at(d, j), item, table.n, cells)


def lay(words, table):
    """Puts the words of a Sheet over words: those in use get its words, the others stay."""
    words[DEVICES], words[CELLS] = table.n, table.cells
    lay_sheet(words, SHEET, table.sheet)
    for d in range(table.n):
        lay_device(words, d, table)


def in_use(words):
    """The indices of the words in use of a table."""
    devices, cells = words[DEVICES], words[CELLS]
    yield from range(SHEET + 2 * cells)
    for d in range(devices):
        r = record(d)
        yield from range(r, r + 9)
        for at in (KNOWN, TRANSACTION, BUFFERED):
            yield from range(r + at, r + at + 2 * cells)
        items = [item_at(d, j) for j in range(words[r + ITEMS_LENGTH])]
        yield r + RECEIVED
        if words[r + RECEIVED]:
            items.append(r + RECEIVED)
        for at in items:
            yield at
            yield from range(at + ITEM_NUMBERS, at + ITEM_NUMBERS + devices)
            yield from range(at + ITEM_PLACES, at + ITEM_PLACES + 2 * cells)
        for queue, length in ((PENDING, PENDING_LENGTH), (WAITING, WAITING_LENGTH)):
            for j in range(words[r + length]):
                at = round_at(queue, d, j)
                yield from range(at, at + ROUND_CHANGES + 2 * cells)
