"""Document 01 read a second time, with 2026-01, 2026-03, 2026-07, 2026-09 and 2026-13 of document 02, by their words, on records without bytes. Hashes are symbols:
('leaf', key, value), ('inner', left, right) or ZEROS. Nothing here was made from the project's definitions; generate.py compares the two.
"""
from dataclasses import dataclass, replace

ZEROS = ('zeros',)
TOP = 4294967295


@dataclass(frozen=True)
class Record:
    place: str          # '0' and '1'
    version: int
    retired: int
    leaf: tuple = None   # (key, value)
    left: tuple = None   # (version, hash); version 0: no child
    right: tuple = None
    counts: tuple = (0, 0)  # 2026-09: of an inner record, the leaves below its left and its right child


@dataclass(frozen=True)
class Spoilt:
    """A used slot off form, by its raw fields."""
    count: int          # the bit count field
    place: str          # the bits field, without zeros at its end
    version: int
    retired: int


@dataclass(frozen=True)
class Store:
    oldest: int
    latest: int
    slots: tuple        # None: free


def bits(key):
    return ''.join(f'{b:08b}' for b in key)


def formatted(n):
    return Store(0, 0, (None,) * n)


def find(store, version, place):
    for r in store.slots:
        if isinstance(r, Record) and r.version == version and r.place == place:
            return r
    return None


def covers(r, version):
    return r.version <= version and (r.retired == 0 or version < r.retired)


def root(store, version):
    """The root record whose lifetime covers the version."""
    for r in store.slots:
        if isinstance(r, Record) and r.place == '' and covers(r, version):
            return r
    return None


def lowest_spoilt(store, agrees):
    """2026-07: the lowest used slot off form whose fields agree, or None."""
    for i, r in enumerate(store.slots):
        if isinstance(r, Spoilt) and agrees(r):
            return i
    return None


def refuse_spoilt(i):
    """3, and the slot beside it: slot + 1 in the high half of 64 bits."""
    raise Refused(3 + 2**32 * (i + 1))


def seen_root(store, version):
    """The root as a read sees it: a spoilt one is refused, a lost one means an empty version."""
    r = root(store, version)
    if r is None:
        i = lowest_spoilt(store, lambda x: x.count == 0 and x.place.rstrip('0') == '' and covers(x, version))
        if i is not None:
            refuse_spoilt(i)
    return r


def tree(store, version):
    """The nodes of a version's tree by place, for a sound store."""
    nodes = {}

    def follow(r):
        if r is None:
            return
        nodes[r.place] = r
        if r.leaf is None:
            for child, bit in ((r.left, '0'), (r.right, '1')):
                if child[0] != 0:
                    follow(find(store, child[0], r.place + bit))

    follow(root(store, version))
    return nodes


def grants_of(nodes):
    return {r.leaf[0]: r.leaf[1] for r in nodes.values() if r.leaf is not None}


def record_hash(r):
    return ('leaf',) + r.leaf if r.leaf is not None else ('inner', r.left[1], r.right[1])


def apply(store, batch, new):
    """batch: list of (key, value or None); new: the number given. Answer: a number of refusal, or (version, root, count); and the store after."""
    keys = [k for k, _ in batch]
    if any(not a < b for a, b in zip(keys, keys[1:])):
        return 5, store
    if not store.latest < new:
        return 18, store
    old = tree(store, store.latest)
    before = grants_of(old)
    after = dict(before)
    for k, x in batch:
        if x is None:
            after.pop(k, None)
        else:
            after[k] = x
    now = {}

    def same(place):
        here = {k: x for k, x in before.items() if bits(k).startswith(place)}
        there = {k: x for k, x in after.items() if bits(k).startswith(place)}
        return place in old and here == there

    def build(place):
        here = [k for k in after if bits(k).startswith(place)]
        if not here:
            return (0, ZEROS)
        version = new if place == '' or not same(place) else old[place].version
        if len(here) == 1:
            r = Record(place, version, 0, leaf=(here[0], after[here[0]]))
        else:
            l = build(place + '0')
            right = build(place + '1')
            counts = tuple(sum(1 for k in here if bits(k).startswith(place + b)) for b in '01')
            r = Record(place, version, 0, left=l, right=right, counts=counts)
        now[place] = r
        return (version, record_hash(r))

    top = build('')[1]
    order = []

    def below(place):
        r = now.get(place)
        if r is None or r.leaf is not None:
            return
        below(place + '0')
        below(place + '1')
        order.extend(now[c] for c in (place + '0', place + '1') if c in now)

    below('')
    if '' in now:
        order.append(now[''])
    fresh = [r for r in order if r.version == new]
    free = [i for i, r in enumerate(store.slots) if r is None]
    if len(free) < len(fresh):
        return 7, store
    slots = list(store.slots)
    gone = {(r.version, p) for p, r in old.items()} - {(r.version, p) for p, r in now.items()}
    for i, r in enumerate(slots):
        if r is not None and (r.version, r.place) in gone:
            slots[i] = replace(r, retired=new)
    for i, r in zip(free, fresh):
        slots[i] = r
    return (new, top, len(fresh)), Store(store.oldest, new, tuple(slots))


def prune(store, n):
    if not store.oldest <= n <= store.latest:
        return 8, store
    slots = tuple(None if r is not None and 0 < r.retired <= n else r for r in store.slots)
    freed = sum(1 for a, b in zip(store.slots, slots) if a is not None and b is None)
    return freed, Store(n, store.latest, slots)


class Refused(Exception):
    pass


def child_record(store, child, place):
    """The record of a present child, judged as a read judges it."""
    r = find(store, child[0], place)
    if r is None:
        i = lowest_spoilt(store, lambda x: x.version == child[0] and x.count == len(place) and x.place.rstrip('0') == place.rstrip('0'))
        if i is not None:
            refuse_spoilt(i)
        raise Refused(17)
    if r.leaf is not None and not bits(r.leaf[0]).startswith(place):
        raise Refused(3)
    return r


def walk(store, version, key):
    """The inner nodes passed with the bit taken at each, and the leaf at the end or None."""
    r = seen_root(store, version)
    trail = []
    if r is None:
        return trail, None
    while r.leaf is None:
        b = bits(key)[len(r.place)]
        trail.append((r, b))
        child = r.right if b == '1' else r.left
        if child[0] == 0:
            return trail, None
        r = child_record(store, child, r.place + b)
    return trail, r


def other(b):
    return '1' if b == '0' else '0'


def on(r, b):
    return r.right if b == '1' else r.left


def steps_of(trail):
    """Steps from the end of a trail upwards: the side of the node and the sibling's hash as stored."""
    return [(b, on(r, other(b))[1]) for r, b in reversed(trail)]


def neighbour(store, trail, end, key, side):
    if end is not None and (end.leaf[0] < key if side == '0' else end.leaf[0] > key):
        return end.leaf + (steps_of(trail),)
    for i in range(len(trail) - 1, -1, -1):
        r, b = trail[i]
        if b == other(side) and on(r, side)[0] != 0:
            path = trail[:i] + [(r, side)]
            r = child_record(store, on(r, side), r.place + side)
            while r.leaf is None:
                b = other(side) if on(r, other(side))[0] != 0 else side
                path.append((r, b))
                r = child_record(store, on(r, b), r.place + b)
            return r.leaf + (steps_of(path),)
    return None


def kept(store, version):
    if not store.oldest <= version <= store.latest:
        raise Refused(8)


def prove(store, version, key):
    kept(store, version)
    # 2026-03: proving in an empty version is refused with 14, tested after 8.
    if seen_root(store, version) is None:
        raise Refused(14)
    trail, end = walk(store, version, key)
    if end is not None and end.leaf[0] == key:
        return ('presence',) + end.leaf + (steps_of(trail),)
    left = neighbour(store, trail, end, key, '0')
    right = neighbour(store, trail, end, key, '1')
    return ('absence', key, left, right)


def read_key(store, version, key):
    kept(store, version)
    trail, end = walk(store, version, key)
    return end.leaf[1] if end is not None and end.leaf[0] == key else None


def read_root(store, version):
    kept(store, version)
    r = seen_root(store, version)
    return ZEROS if r is None else record_hash(r)


def number_of(r):
    """2026-09: the root's counts summed, 1 for a leaf, 0 for no root."""
    return 0 if r is None else 1 if r.leaf is not None else sum(r.counts)


def read_number(store, version):
    kept(store, version)
    return Number(number_of(seen_root(store, version)))


def read_position(store, version, i):
    """2026-09: a position not below the number gives 20, after 8 and the root lookup. A descent by counts gives 3 also where it meets a missing
    child, or a leaf with a position left over."""
    kept(store, version)
    r = seen_root(store, version)
    if not i < number_of(r):
        raise Refused(20)
    while r.leaf is None:
        b = '0' if i < r.counts[0] else '1'
        if b == '1':
            i -= r.counts[0]
        child = on(r, b)
        if child[0] == 0:
            raise Refused(3)
        r = child_record(store, child, r.place + b)
    if i != 0:
        raise Refused(3)
    return r.leaf


@dataclass(frozen=True)
class Number:
    """A number that is an answer, not a refusal."""
    value: int


def answer(f, *args):
    try:
        return f(*args)
    except Refused as e:
        return int(e.args[0])


# Checking, with hashes as bytes: leaf_hash and inner_hash are given.

def climb(hashes, p):
    key, value, steps = p
    h = hashes[0](key, value)
    for side, sibling in steps:
        h = hashes[1](sibling, h) if side == '1' else hashes[1](h, sibling)
    return h


def outermost(side, steps):
    return all(s == side or x == bytes(32) for s, x in steps)


def check_proof(hashes, root, key, p):
    """The value, None for absent, or 11."""
    if p[0] == 'presence':
        return p[2] if p[1] == key and climb(hashes, p[1:]) == root else 11
    _, k, left, right = p
    ok = k == key
    for n in (left, right):
        ok = ok and (n is None or climb(hashes, n) == root)
    ok = ok and (left is None or left[0] < key) and (right is None or key < right[0])
    if left is None and right is None:
        ok = False  # 2026-03: at least one neighbour is needed
    elif right is None:
        ok = ok and outermost('1', left[2])
    elif left is None:
        ok = ok and outermost('0', right[2])
    else:
        a, b = list(left[2]), list(right[2])
        while a and b and a[-1] == b[-1]:
            a.pop()
            b.pop()
        ok = ok and bool(a) and bool(b) and a[-1][0] == '0' and b[-1][0] == '1'
        ok = ok and outermost('1', a[:-1]) and outermost('0', b[:-1])
    return None if ok else 11


def changes(store, first, second):
    """2026-01: the places visited, in order, and the list from first to second: ('insert' or 'delete', key, value)."""
    old, new = tree(store, first), tree(store, second)
    visited = []

    def visit(place):
        visited.append(place)
        a, b = old.get(place), new.get(place)
        if a is not None and b is not None and a.version == b.version:
            return
        if all(r is None or r.leaf is not None for r in (a, b)):
            return
        visit(place + '0')
        visit(place + '1')

    visit('')
    before, after = grants_of(old), grants_of(new)
    listed = []
    for k in sorted(set(before) | set(after)):
        if before.get(k) != after.get(k):
            if k in before:
                listed.append(('delete', k, before[k]))
            if k in after:
                listed.append(('insert', k, after[k]))
    return visited, listed
