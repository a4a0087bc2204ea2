"""Tables of random runs, and the changes made to their words: damages that break one condition of docs/TABLE.md, and changes within the ranges."""
import array
import struct

import layout as at
from layout import model

MASK = at.MASK
HUGE = (1 << 32, 1 << 63, MASK - 1, MASK)
NOT_FINITE = (0x7FF0000000000000, 0xFFF0000000000000, 0x7FF8000000000000, 0x7FF0000000000001, MASK)


def some_cell(chance):
    kind = chance.randrange(5)
    if kind == 0:
        return None
    if kind < 3:
        return ('count', chance.choice((0, 1, -1, 7, (1 << 63) - 1, -(1 << 63), at.signed(chance.getrandbits(64)))))
    if kind == 3:
        return ('measure', chance.choice((0, 1, 1 << 63, 0x7FEFFFFFFFFFFFFF, 0x3FF8000000000000)))
    return ('measure', struct.unpack('<Q', struct.pack('<d', chance.uniform(-1e9, 1e9)))[0])


def some_update(chance):
    if chance.random() < 0.5:
        return ('add', chance.choice((0, 1, -1, (1 << 63) - 1, at.signed(chance.getrandbits(64)))))
    return ('set', some_cell(chance))


STEPS = ('update', 'push', 'send', 'ask', 'drop', 'receive', 'pull', 'accept', 'serverdrop', 'crash', 'batch', 'cut')
# How likely each step is, by the mood of a stretch of the run: any, rounds that pile up, items that pile up, links that go and come, all that is on its way arrives.
MOODS = ((24, 14, 16, 2, 0.5, 12, 6, 10, 1, 0.3, 9, 0.4), (14, 20, 30, 0, 0, 2, 0.5, 2, 0, 0, 0.5, 0), (10, 20, 25, 0, 0, 1.5, 1, 2, 0, 0, 20, 0),
         (8, 8, 8, 8, 3, 8, 3, 10, 6, 1, 4, 1), (0.2, 2, 12, 0, 0, 16, 14, 4, 0, 0, 14, 0))


def some_counts(chance, devices):
    return [chance.choice((0, 1, 1, 2, 8)) for _ in range(devices)]


def some_step(chance, table, weights):
    """One step of the run, or a refusal."""
    name, d = chance.choices(STEPS, weights)[0], chance.randrange(table.n)
    args = [d]
    if name == 'update':
        args += [chance.randrange(table.cells), some_update(chance)]
    elif name == 'crash':
        args = []
    elif name in ('batch', 'cut'):
        args = [some_counts(chance, table.n)] + [chance.randrange(table.n + 1)] * (name == 'cut')
    try:
        getattr(table, name)(*args)
    except model.Refused:
        pass


def link(table, d):
    """Puts device d on a new channel, established."""
    for name in ('serverdrop', 'ask', 'accept', 'receive'):
        try:
            getattr(table, name)(d)
        except model.Refused:
            pass


def noise(chance, length):
    """Words for the places not in use: zeros, small numbers, any words, or a little of each."""
    kind = chance.randrange(4)
    if kind == 0:
        return array.array('Q', bytes(8 * length))
    if kind == 1:
        return array.array('Q', chance.choices((0, 0, 1, 2, 3, 4, 5), k=length))
    if kind == 2:
        return array.array('Q', chance.randbytes(8 * length))
    return array.array('Q', chance.choices((0, 0, 0, 1, 2, 9, MASK, 1 << 63), k=length))


def run_tables(chance, count):
    """The words of some tables of one random run."""
    devices = chance.choice((1,) * 7 + (2,) * 6 + (3,) * 3 + (4, 5, 6, 7, 8))
    cells = chance.choice((1, 1, 2, 2, 3, 3, 4, 4, 5, 6, 8, 12, 16, 33, 64))
    table = model.Sheet(devices, cells)
    for _ in range(count):
        mood = chance.choice(MOODS)
        for d in range(devices):
            if chance.random() < 0.5:
                link(table, d)
        for _ in range(chance.randrange(4, 30) * devices):
            some_step(chance, table, mood)
        extra = chance.choice((0, 0, 0, 1, 2, 130, 3690))
        words = noise(chance, at.need(devices) + extra)
        at.lay(words, table)
        yield words


def unreached(words):
    """Whether the table breaks what holds of every reached one: numbers that must agree, rounds that wait and are not those pending above the taken one, .."""
    table = at.read(words)
    if not any(table.taken) and (any(table.sheet) or any(any(device.known) for device in table.devices)):
        return True
    for d, device in enumerate(table.devices):
        sent = device.pending[-1][0] if device.pending else table.taken[d]
        if device.last - device.covered != sent or device.covered == 0 and device.push:
            return True
        holder = at.round_store(table, d)
        rounds = holder.rounds if holder is not None else []
        if rounds and rounds != [r for r in device.pending if r[0] > table.taken[d]]:
            return True
        items = (device.channel.items if device.channel is not None else []) + [device.buffer] * (device.buffer is not None)
        for kind, _, numbers in items:
            given = enumerate(numbers) if kind == 'prefix' else numbers.items()
            if any(number > table.taken[e] for e, number in given):
                return True
    return False


def devices_where(words, test):
    return [d for d in range(words[at.DEVICES]) if test(at.record(d))]


def some_device(chance, words, test=lambda r: True):
    fit = devices_where(words, test)
    return chance.choice(fit) if fit else None


def single(word, values):
    """Sets a single word of some record."""
    def damage(chance, words):
        return [(at.record(chance.randrange(words[at.DEVICES])) + word, chance.choice(values))]
    return damage


def header(word, values):
    return lambda chance, words: [(word, chance.choice(values))]


def items_of(words, d):
    return [at.item_at(d, j) for j in range(words[at.record(d) + at.ITEMS_LENGTH])]


def starts(words, region):
    """Where the places of a region start, with the kind of their places, for each of its parts in use."""
    devices = range(words[at.DEVICES])
    if region == 'server sheet':
        return [(at.SHEET, 'cell')]
    for name, offset, kind in (('known', at.KNOWN, 'cell'), ('transaction', at.TRANSACTION, 'change'), ('push buffer', at.BUFFERED, 'change')):
        if region == name:
            return [(at.record(d) + offset, kind) for d in devices]
    for name, queue, length in (('pending', at.PENDING, at.PENDING_LENGTH), ('waiting', at.WAITING, at.WAITING_LENGTH)):
        if region == name:
            return [(at.round_at(queue, d, j) + at.ROUND_CHANGES, 'change') for d in devices for j in range(words[at.record(d) + length])]
    return [(i + at.ITEM_PLACES, 'cell' if words[i] == at.PREFIX else 'change') for i in items_in(words, region)]


def items_in(words, region):
    devices = range(words[at.DEVICES])
    if region == 'items':
        return [i for d in devices for i in items_of(words, d)]
    return [at.record(d) + at.RECEIVED for d in devices if words[at.record(d) + at.RECEIVED]]


def places(words, region, kind):
    return [start + 2 * c for start, its in starts(words, region) if its == kind for c in range(words[at.CELLS])]


def place(region, kind, make):
    """A damage of one place of the region, of cells or of changes."""
    def damage(chance, words):
        fit = places(words, region, kind)
        if not fit:
            return None
        i = chance.choice(fit)
        return make(chance, words, i)
    return damage


def bad_kind(least):
    return lambda chance, words, i: [(i, chance.choice((least, least, least + 1, 256) + HUGE))]


def bad_payload(kind):
    """A payload beside blank, nothing or a set to blank: the payload's word where the kind is that, else the kind's."""
    def make(chance, words, i):
        if words[i] == kind:
            return [(i + 1, chance.choice((1, 2) + HUGE))]
        return [(i, kind)] if words[i + 1] else [(i, kind), (i + 1, chance.choice((1, MASK)))]
    return make


def not_finite(kind):
    def make(chance, words, i):
        payload = (i + 1, chance.choice(NOT_FINITE))
        return [payload] if words[i] == kind else [(i, kind), payload]
    return make


def item_kind(region, values):
    def damage(chance, words):
        fit = items_in(words, region)
        return [(chance.choice(fit), chance.choice(values))] if fit else None
    return damage


def item_number(region, values, prefix=False):
    def damage(chance, words):
        fit = [i for i in items_in(words, region) if not prefix or words[i] == at.PREFIX]
        return [(chance.choice(fit) + at.ITEM_NUMBERS + chance.randrange(words[at.DEVICES]), chance.choice(values))] if fit else None
    return damage


def renumber(words, d, j, number):
    """Gives the pending round j a number, and the waiting one that is the same round."""
    r = at.record(d)
    pending, waiting = words[r + at.PENDING_LENGTH], words[r + at.WAITING_LENGTH]
    pokes = [(at.round_at(at.PENDING, d, j), number)]
    k = j - (pending - waiting)
    return pokes + [(at.round_at(at.WAITING, d, k), number)] if 0 <= k < waiting else pokes


def pending_zero(chance, words):
    d = some_device(chance, words, lambda r: words[r + at.PENDING_LENGTH])
    return None if d is None else renumber(words, d, 0, 0)


def pending_falls(chance, words):
    d = some_device(chance, words, lambda r: words[r + at.PENDING_LENGTH] > 1)
    if d is None:
        return None
    j = chance.randrange(1, words[at.record(d) + at.PENDING_LENGTH])
    before = words[at.round_at(at.PENDING, d, j - 1)]
    return renumber(words, d, j, before if chance.random() < 0.5 else max(1, before - 1))


def pending_passes(chance, words):
    d = some_device(chance, words, lambda r: words[r + at.PENDING_LENGTH])
    if d is None:
        return None
    r = at.record(d)
    if chance.random() < 0.3:
        return [(r + at.LAST, words[at.round_at(at.PENDING, d, words[r + at.PENDING_LENGTH] - 1)] - 1)]
    return renumber(words, d, words[r + at.PENDING_LENGTH] - 1, chance.choice((words[r + at.LAST] + 1, 1_000_001) + HUGE))


def pending_is_last(chance, words):
    d = some_device(chance, words, lambda r: words[r + at.PENDING_LENGTH])
    if d is None:
        return None
    r = at.record(d)
    j = words[r + at.PENDING_LENGTH] - 1
    if words[r + at.COVERED]:
        return renumber(words, d, j, words[r + at.LAST])
    return [(r + at.COVERED, chance.choice((1, words[r + at.LAST])))]


def above_last(word):
    def damage(chance, words):
        d = some_device(chance, words, lambda r: words[r + at.LAST] < at.MOST_PUSHES)
        r = at.record(d or 0)
        return None if d is None else [(r + word, chance.choice((words[r + at.LAST] + 1, at.MOST_PUSHES)))]
    return damage


def fewer_pending(chance, words):
    d = some_device(chance, words, lambda r: words[r + at.WAITING_LENGTH])
    r = at.record(d or 0)
    return None if d is None else [(r + at.PENDING_LENGTH, chance.randrange(words[r + at.WAITING_LENGTH]))]


def other_waiting(chance, words):
    d = some_device(chance, words, lambda r: words[r + at.WAITING_LENGTH])
    if d is None:
        return None
    r = at.record(d)
    j = chance.randrange(words[r + at.WAITING_LENGTH])
    i = at.round_at(at.WAITING, d, j)
    if chance.random() < 0.3:
        return [(r + at.WAITING_LENGTH, j)]
    return [(i, chance.choice((words[i] + 1, words[i] - 1, 0) + HUGE))]


def set_where(word, value, test):
    """Sets a single word of a record for which the test holds."""
    def damage(chance, words):
        d = some_device(chance, words, lambda r: test(words, r))
        return None if d is None else [(at.record(d) + word, value)]
    return damage


def either(*damages):
    return lambda chance, words: chance.choice(damages)(chance, words)


def kind_of_item(old, new, test):
    """Makes an item of one kind one of the other; test is asked with the words, the record and the place in the queue."""
    def damage(chance, words):
        fit = [at.item_at(d, j) for d in range(words[at.DEVICES]) for j in range(words[at.record(d) + at.ITEMS_LENGTH])
               if words[at.item_at(d, j)] == old and test(words, at.record(d), j)]
        return [(chance.choice(fit), new)] if fit else None
    return damage


CONDITIONS = {
    'header: devices': header(at.DEVICES, (0, 0, 9, 9, 10) + HUGE),
    'header: cells': header(at.CELLS, (0, 0, 65, 65, 128) + HUGE),
}
for word, most in at.SINGLES.items():
    CONDITIONS[f'range: {at.SINGLE_NAMES[word]}'] = single(word, (most + 1, most + 1, most + 2) + HUGE)
for region, kinds in (('server sheet', 'cell'), ('known', 'cell'), ('transaction', 'change'), ('push buffer', 'change'), ('pending', 'change'),
                      ('waiting', 'change'), ('receive buffer', 'cell change'), ('items', 'cell change')):
    finite = []
    if 'cell' in kinds:
        CONDITIONS[f'{region}: kind of a cell'] = place(region, 'cell', bad_kind(3))
        CONDITIONS[f'{region}: payload of blank'] = place(region, 'cell', bad_payload(0))
        finite.append(place(region, 'cell', not_finite(2)))
    if 'change' in kinds:
        CONDITIONS[f'{region}: kind of a change'] = place(region, 'change', bad_kind(5))
        CONDITIONS[f'{region}: payload of nothing'] = place(region, 'change', bad_payload(0))
        CONDITIONS[f'{region}: payload of a set to blank'] = place(region, 'change', bad_payload(1))
        finite.append(place(region, 'change', not_finite(3)))
    CONDITIONS[f'{region}: not finite'] = either(*finite)
for region, least in (('receive buffer', 3), ('items', 0)):
    CONDITIONS[f'{region}: kind of an item'] = item_kind(region, (least, 3, 4) + HUGE)
    CONDITIONS[f'{region}: number of an item'] = item_number(region, (1_000_002, 1_000_002, 1_000_003) + HUGE)
    CONDITIONS[f'{region}: no number in a prefix'] = item_number(region, (0,), prefix=True)
CONDITIONS.update({
    '1: a pending number is 0': pending_zero,
    '1: pending numbers rise': pending_falls,
    '1: a pending number passes the last push': pending_passes,
    '1: a pending number is the last push with a push buffered': pending_is_last,
    '2: the taken number passes the last push': above_last(at.TAKEN),
    '2: more pushes covered than made': above_last(at.COVERED),
    '3: more rounds wait than are pending': fewer_pending,
    '3: waiting numbers are those of the last pending rounds': other_waiting,
    '4: a round waits on a channel not established': either(
        set_where(at.CHANNEL, at.NO_CHANNEL, lambda words, r: words[r + at.WAITING_LENGTH] and words[r + at.CONNECTION] != at.STALE),
        set_where(at.CHANNEL, at.ASKED, lambda words, r: words[r + at.WAITING_LENGTH] and words[r + at.CONNECTION] != at.STALE),
        set_where(at.CONNECTION, at.NONE, lambda words, r: words[r + at.WAITING_LENGTH] and words[r + at.CONNECTION] == at.STALE)),
    '5: a request without such a channel': set_where(at.REQUEST, 1, lambda words, r: words[r + at.CHANNEL] != at.ASKED),
    '5: a request beside items': set_where(at.REQUEST, 1, lambda words, r: words[r + at.CHANNEL] == at.ASKED and words[r + at.ITEMS_LENGTH]),
    '6: items without a channel': set_where(at.CHANNEL, at.NO_CHANNEL, lambda words, r: words[r + at.ITEMS_LENGTH]),
    '6: a live connection without a channel': either(
        set_where(at.CONNECTION, at.LIVE, lambda words, r: words[r + at.CHANNEL] == at.NO_CHANNEL),
        set_where(at.CHANNEL, at.NO_CHANNEL, lambda words, r: words[r + at.CONNECTION] == at.LIVE)),
    '7: a segment first on an asked channel': either(
        kind_of_item(at.PREFIX, at.SEGMENT, lambda words, r, j: True),
        set_where(at.CHANNEL, at.ASKED, lambda words, r: words[r + at.CHANNEL] == at.ESTABLISHED and words[r + at.ITEMS_LENGTH])),
    '7: a prefix in another place': either(
        kind_of_item(at.SEGMENT, at.PREFIX, lambda words, r, j: j > 0 or words[r + at.CHANNEL] == at.ESTABLISHED),
        set_where(at.CHANNEL, at.ESTABLISHED, lambda words, r: words[r + at.CHANNEL] == at.ASKED and words[r + at.ITEMS_LENGTH])),
    '8: no item on an asked channel with a live connection': either(
        set_where(at.ITEMS_LENGTH, 0, lambda words, r: words[r + at.CHANNEL] == at.ASKED and words[r + at.CONNECTION] == at.LIVE),
        set_where(at.CONNECTION, at.LIVE, lambda words, r: words[r + at.CHANNEL] == at.ASKED and not words[r + at.ITEMS_LENGTH])),
    '9: a stale connection beside an established channel': either(
        set_where(at.CONNECTION, at.STALE, lambda words, r: words[r + at.CHANNEL] == at.ESTABLISHED),
        set_where(at.CHANNEL, at.ESTABLISHED, lambda words, r: words[r + at.CONNECTION] == at.STALE)),
})


def other_place(chance, words):
    region = chance.choice(('server sheet', 'known', 'transaction', 'push buffer', 'pending', 'waiting', 'receive buffer', 'items'))
    kind = chance.choice(('cell', 'change'))
    fit = places(words, region, kind)
    if not fit:
        return None
    i = chance.choice(fit)
    new = at.cell_words(some_cell(chance)) if kind == 'cell' else at.change_words(chance.choice((None, some_update(chance), some_update(chance))))
    return [(i, new[0]), (i + 1, new[1])]


def other_single(chance, words):
    word = chance.choice(list(at.SINGLES))
    r = at.record(chance.randrange(words[at.DEVICES]))
    old, last = words[r + word], words[r + at.LAST]
    values = {at.LAST: (old + 1, old + 5, 999_999, 1_000_000), at.TAKEN: (0, last // 2, last, max(old, 1) - 1), at.COVERED: (0, 1, last // 2, last)}
    return [(r + word, chance.choice(values.get(word, range(at.SINGLES[word] + 1))))]


def other_pending(chance, words):
    d = some_device(chance, words, lambda r: words[r + at.PENDING_LENGTH])
    if d is None:
        return None
    j = chance.randrange(words[at.record(d) + at.PENDING_LENGTH])
    number = words[at.round_at(at.PENDING, d, j)]
    return renumber(words, d, j, chance.choice((number + 1, number - 1, words[at.record(d) + at.LAST])))


def other_number(chance, words):
    r = at.record(chance.randrange(words[at.DEVICES]))
    return item_number(chance.choice(('items', 'receive buffer')), (0, 1, 2, words[r + at.LAST] + 1, words[r + at.TAKEN] + 1, 1_000_001))(chance, words)


def other_link(chance, words):
    r = at.record(chance.randrange(words[at.DEVICES]))
    return [(r + at.CHANNEL, chance.randrange(3)), (r + at.CONNECTION, chance.randrange(3)), (r + at.REQUEST, chance.randrange(2))]


def other_sizes(chance, words):
    return [(at.DEVICES, chance.randrange(1, 9)) if chance.random() < 0.5 else (at.CELLS, chance.randrange(1, 65))]


def other_buffer(chance, words):
    return [(at.record(chance.randrange(words[at.DEVICES])) + at.RECEIVED, chance.randrange(3))]


# A connection that is stale beside items, as no run has it.
stale_beside_items = set_where(at.CONNECTION, at.STALE, lambda words, r: words[r + at.CHANNEL] == at.ASKED and words[r + at.ITEMS_LENGTH])

CHANGES = (stale_beside_items, other_place, other_place, other_single, other_single, other_pending, other_number, other_number, other_link, other_link,
           other_sizes, other_buffer)


def some_change(chance, words):
    """One to three words in use, changed within the ranges; or None."""
    pokes = chance.choice(CHANGES)(chance, words)
    if pokes is not None and len(pokes) < 3 and chance.random() < 0.4:
        more = chance.choice(CHANGES)(chance, words)
        if more is not None and len(pokes) + len(more) <= 3:
            return pokes + more
    return pokes
