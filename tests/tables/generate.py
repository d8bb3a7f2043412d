#!/usr/bin/env python3
"""Writes crates/tables/proofs from model.py: random histories, looks at whole and damaged stores, and checks of made-up proofs, each with
the answer that the model gives, as equations that antt computes.
The seed is fixed; run it, then `rt fmt` in crates/tables, after a change of the model.
"""
import random
import sys
from dataclasses import replace
from pathlib import Path

import model
from model import Record, Spoilt, Store, ZEROS

ROOT = Path(__file__).resolve().parents[2]
OUT = ROOT / 'crates/tables/proofs'
KEYS = [0x00, 0x08, 0x10, 0x40, 0x60, 0x68, 0x80, 0x90, 0xC0, 0xFE, 0xFF]


def key(first, last=0):
    return bytes([first] + [0] * 30 + [last])


def value(n):
    return bytes([n] * 32)


def key_term(k):
    return f'(key_of {k[0]} {k[31]})'


def value_term(x):
    return f'(value_of {x[0]})'


def list_term(items):
    return '(' + ' ∷ '.join(list(items) + ['[]']) + ')'


def place_term(p):
    return list_term('true' if b == '1' else 'false' for b in p)


class Names:
    """Hash terms, each named once."""

    def __init__(self):
        self.names, self.lines = {}, []

    def term(self, h):
        if h == ZEROS:
            return 'zeros'
        if h not in self.names:
            if h[0] == 'leaf':
                body = f'leaf_hash {key_term(h[1])} {value_term(h[2])}'
            elif h[0] == 'junk':
                return value_term(h[1])
            else:
                body = f'inner_hash {self.term(h[1])} {self.term(h[2])}'
            self.names[h] = f'h{len(self.names)}'
            self.lines += [f'  abbrev {self.names[h]} : Bytes', f'  {self.names[h]} = {body}', '']
        return self.names[h]

    def slot(self, r):
        if r is None:
            return 'free'
        if isinstance(r, Spoilt):
            return f'spoilt_slot {r.count} {place_term(r.place)} {r.version} {r.retired}'
        head = f'{place_term(r.place)} {r.version} {r.retired}'
        if r.leaf is not None:
            return f'leaf_slot {head} {key_term(r.leaf[0])} {value_term(r.leaf[1])}'
        return f'inner_slot {head} {r.left[0]} {self.term(r.left[1])} {r.right[0]} {self.term(r.right[1])} {r.counts[0]} {r.counts[1]}'

    def store(self, s):
        slots = '\n      ∷ '.join([self.slot(r) for r in s.slots] + ['[]'])
        return f'store_of {s.oldest} {s.latest}\n      ({slots})'


def random_batch(rng, grants, keys):
    batch = {}
    for _ in range(rng.choice([0, 1, 1, 2, 2, 3, 5])):
        k = rng.choice(keys)
        if rng.random() < 0.25 and k in grants:
            batch[k] = grants[k]
        elif rng.random() < 0.45:
            batch[k] = None
        else:
            batch[k] = value(rng.randrange(1, 5))
    batch = sorted(batch.items())
    if rng.random() < 0.05 and len(batch) > 1:
        batch.reverse()
    return batch


def random_number(rng, s):
    """The next number, one further on, or one that is not above latest; 4294967295 at most."""
    how = rng.random()
    if how < 0.05:
        return rng.randrange(s.latest + 1)
    return min(model.TOP, s.latest + (rng.randrange(2, 6) if how < 0.4 else 1))


def random_history(rng):
    capacity = rng.choice([4, 8, 12, 16, 24])
    keys = [key(f) for f in rng.sample(KEYS, rng.randrange(2, 7))]
    start = model.formatted(capacity)
    if rng.random() < 0.1:
        start = Store(model.TOP - 2, model.TOP - 2, start.slots)
    s, moves, replies = start, [], []
    for _ in range(rng.randrange(4, 11)):
        if rng.random() < 0.25:
            n = max(0, rng.randrange(s.oldest - 1, s.latest + 2))
            moves.append(('prune', n))
            a, s2 = model.prune(s, n)
            replies.append(('refused', 8) if not s.oldest <= n <= s.latest else ('freed', a))
        else:
            grants = model.grants_of(model.tree(s, s.latest))
            batch = random_batch(rng, grants, keys)
            number = random_number(rng, s)
            moves.append(('apply', batch, number))
            a, s2 = model.apply(s, batch, number)
            replies.append(('refused', a) if isinstance(a, int) else ('made',) + a)
        s = s2
    return capacity, start, moves, replies, s, keys


def move_term(m):
    if m[0] == 'prune':
        return f'pruning {m[1]}'
    asks = (f'delete {key_term(k)}' if x is None else f'insert {key_term(k)} {value_term(x)}' for k, x in m[1])
    return f'applying {m[2]} {list_term(asks)}'


def reply_term(names, r):
    if r[0] == 'made':
        return f'made {r[1]} {names.term(r[2])} {r[3]}'
    return f'{"denied" if r[0] == "refused" else r[0]} {r[1]}'


def step_term(names, st):
    return f'step {"true" if st[0] == "1" else "false"} {names.term(st[1])}'


def presence_term(names, p):
    return f'(presence_of {key_term(p[0])} {value_term(p[1])} {list_term(step_term(names, s) for s in p[2])})'


def option_term(names, p):
    return 'none' if p is None else f'(some {presence_term(names, p)})'


def proof_term(names, p):
    if p[0] == 'presence':
        return f'(presence {presence_term(names, p[1:])})'
    return f'(absence_of {key_term(p[1])} {option_term(names, p[2])} {option_term(names, p[3])})'


def refused_or(a, f):
    return f'(refused {a})' if isinstance(a, int) else f'(accepted {f(a)})'


def verdict_term(a):
    return 'absent' if a is None else f'(present {value_term(a)})'


def damaged(rng, s, counts=False):
    """The store with one thing changed that a read may meet."""
    used = [i for i, r in enumerate(s.slots) if r is not None]
    if not used:
        return s
    slots = list(s.slots)
    i = rng.choice(used)
    r = slots[i]
    if isinstance(r, Spoilt):
        return s
    how = rng.randrange(11) if counts is False else rng.choice([0, 1, 2, 3, 4, 7, 9, 11, 11, 11, 11])
    if how == 0:
        slots[i] = None
    elif how == 1 and r.leaf is not None:
        slots[i] = replace(r, leaf=(key(rng.choice(KEYS)), r.leaf[1]))
    elif how == 2 and r.leaf is None:
        slots[i] = replace(r, left=(rng.randrange(1, 4), r.left[1]))
    elif how == 3 and r.leaf is None and r.right[0] != 0:
        slots[i] = replace(r, left=(0, ZEROS))
    elif how == 4 and None in slots:
        slots[slots.index(None)] = replace(r, leaf=(key(rng.choice(KEYS)), value(9)), left=None, right=None, counts=(0, 0))
    elif how in (7, 8):  # 2026-07: off form, the fields as they were, or one of them changed
        field = rng.choice(['', '', '', 'count', 'place', 'version', 'retired'])
        slots[i] = Spoilt(len(r.place) + (field == 'count'), r.place + ('001' if field == 'place' else ''), (r.version + (field == 'version')) % 2**32,
                          rng.choice([0, (r.version + 1) % 2**32, s.latest]) if field == 'retired' else r.retired)
    elif how == 9 and None in slots:  # a spoilt slot beside the one in form
        slots[slots.index(None)] = Spoilt(len(r.place), r.place, r.version, r.retired)
    elif how == 10 and None in slots:  # two spoilt ones
        slots[slots.index(None)] = slots[i] = Spoilt(len(r.place), r.place, r.version, r.retired)
    elif how == 11 and r.leaf is None:  # 2026-09: another count
        slots[i] = replace(r, counts=rng.choice([r.counts[::-1], (r.counts[0] + 1, r.counts[1]), (r.counts[0], r.counts[1] + 1), (0, 4294967295)]))
    elif how == 5:
        slots[i] = replace(r, retired=rng.choice([0, r.version + 1, s.latest + 1]))
    else:
        slots[i] = replace(r, version=r.version + 1)
    return Store(s.oldest, s.latest, tuple(slots))


HEAD = '''-- {title} Written by tests/tables/generate.py; compared with a second reading of document 01, 2026-07 and 2026-13. Assumes nothing.
use mathlib.Core.Path.{{◌≡◌, refl}}
use mathlib.Core.Bool.{{true, false}}
use mathlib.Core.List.{{List, [], ◌∷◌}}
use mathlib.Core.Option.{{none, some}}
use Rattle.terms.specs.Bits.{{Bytes, All}}
use Rattle.terms.specs.Records.{{insert, delete, free, Store, presence, zeros}}
use Rattle.meaning.specs.Computed.{{computed}}
use Rattle.meaning.specs.Calls.{{refused, accepted}}
use Rattle.meaning.specs.Desk.{{key_of}}
use Rattle.meaning.specs.Proving.{{step, presence_of, absence_of}}
use Rattle.meaning.specs.Reading.{{present, absent}}
use Rattle.tables.specs.Tables.{{{names}}}

'''


def proof_of(n, row):
    return 'tt' if n == 0 else f'({row}, {proof_of(n - 1, row)})'


ROW = {'Game': '(refl, refl)', 'Look': '(refl, refl, refl)', 'Try': 'refl', 'Comparison': '(refl, refl)', 'Position': '(refl, refl)'}


def histories(rng, number, count):
    names, decls, rows = Names(), [], []
    for i in range(count):
        capacity, start, moves, replies, end, _ = random_history(rng)
        decls += [f'  abbrev end{i} : Store', f'  end{i} =', f'    {names.store(end)}', '']
        rows.append(
            f'game (store_of {start.oldest} {start.latest} (free_slots {capacity}))\n      '
            + list_term(move_term(m) for m in moves)
            + '\n      '
            + list_term(reply_term(names, r) for r in replies)
            + f'\n      end{i}'
        )
    text = HEAD.format(title=f'Random histories, part {number}.', names='Game, game, GameHolds, applying, pruning, made, freed, denied, leaf_slot, inner_slot, store_of, free_slots, value_of')
    return text, names, decls, rows, 'Game', 'GameHolds'


def looks(rng, number, count):
    names, decls, rows = Names(), [], []
    for i in range(count):
        _, _, _, _, s, keys = random_history(rng)
        if i % 2:
            s = damaged(rng, s)
            if rng.random() < 0.5:
                s = damaged(rng, s)
        decls += [f'  abbrev seen{i} : Store', f'  seen{i} =', f'    {names.store(s)}', '']
        for _ in range(4):
            v = max(0, rng.choice([s.latest] * 6 + [rng.randrange(s.oldest, s.latest + 1)] * 5 + [rng.choice([s.oldest - 1, s.latest + 1])]))
            k = rng.choice(keys + [key(rng.choice(KEYS), rng.choice([0, 1]))])
            p = model.answer(model.prove, s, v, k)
            g = model.answer(model.read_key, s, v, k)
            r = model.answer(model.read_root, s, v)
            rows.append(
                f'look seen{i} {v} {key_term(k)} '
                + refused_or(p, lambda x: proof_term(names, x))
                + ' '
                + refused_or(g, verdict_term)
                + ' '
                + refused_or(r, names.term)
            )
    text = HEAD.format(title=f'Proofs and reads of whole and damaged stores, part {number}.', names='Look, look, LookHolds, leaf_slot, inner_slot, spoilt_slot, store_of, free_slots, value_of')
    return text, names, decls, rows, 'Look', 'LookHolds'


def positions(rng, number, count):
    names, decls, rows = Names(), [], []
    for i in range(count):
        _, _, _, _, s, _ = random_history(rng)
        if i % 2:
            s = damaged(rng, s, True)
            if rng.random() < 0.5:
                s = damaged(rng, s, True)
        decls += [f'  abbrev at{i} : Store', f'  at{i} =', f'    {names.store(s)}', '']
        for _ in range(5):
            v = max(0, rng.choice([s.latest] * 6 + [rng.randrange(s.oldest, s.latest + 1)] * 5 + [rng.choice([s.oldest - 1, s.latest + 1])]))
            n = model.answer(model.read_number, s, v)
            j = rng.randrange(min(n.value, 6) + 1) if isinstance(n, model.Number) else rng.randrange(3)
            g = model.answer(model.read_position, s, v, j)
            rows.append(f'position at{i} {v} {j} ' + refused_or(n, lambda x: str(x.value)) + ' ' + refused_or(g, lambda x: f'(grant {key_term(x[0])} {value_term(x[1])})'))
    text = HEAD.format(title=f'Numbers and positions in whole and damaged stores, part {number}.', names='Position, position, PositionHolds, leaf_slot, inner_slot, spoilt_slot, store_of, free_slots, value_of')
    text = text.rstrip('\n').replace('2026-07 and 2026-13.', '2026-07, 2026-09 and 2026-13.') + '\nuse Rattle.terms.specs.Records.{grant}\n\n'
    return text, names, decls, rows, 'Position', 'PositionHolds'


def item_term(i):
    return f'{i[0]}s (grant {key_term(i[1])} {value_term(i[2])})'


def comparisons(rng, number, count):
    names, decls, rows = Names(), [], []
    for i in range(count):
        _, _, _, _, s, _ = random_history(rng)
        decls += [f'  abbrev kept{i} : Store', f'  kept{i} =', f'    {names.store(s)}', '']
        for _ in range(4):
            a, b = (rng.randrange(s.oldest, s.latest + 1) for _ in range(2))
            visited, listed = model.changes(s, a, b)
            rows.append(f'comparison kept{i} {a} {b} {list_term(place_term(p) for p in visited)} {list_term(item_term(j) for j in listed)}')
    text = HEAD.format(title=f'Comparisons of two versions, part {number}.', names='leaf_slot, inner_slot, store_of, free_slots, value_of')
    text = text.rstrip('\n').replace('2026-13.', '2026-01 and 2026-13.') + '\n'
    text += 'use Rattle.terms.specs.Records.{grant}\nuse Rattle.changed.specs.Changes.{inserts, deletes}\nuse Rattle.tables.specs.Compared.{Comparison, comparison, ComparisonHolds, compared}\n\n'
    return text, names, decls, rows, 'Comparison', 'ComparisonHolds'


def toy_leaf(k, x):
    return bytes([(1 + 3 * sum(k) + 5 * sum(x)) % 256] * 32)


def toy_inner(l, r):
    return bytes([(7 + 11 * sum(l) + 13 * sum(r)) % 256] * 32)


TOY = (toy_leaf, toy_inner)


def toy_value(h):
    if h == ZEROS:
        return bytes(32)
    if h[0] == 'junk':
        return h[1]
    if h[0] == 'leaf':
        return toy_leaf(h[1], h[2])
    return toy_inner(toy_value(h[1]), toy_value(h[2]))


def toy_path(p):
    return None if p is None else (p[0], p[1], [(s, toy_value(h)) for s, h in p[2]])


def toy_proof(p):
    return ('presence',) + toy_path(p[1:]) if p[0] == 'presence' else ('absence', p[1], toy_path(p[2]), toy_path(p[3]))


def made_up_path(rng, steps):
    steps = list(steps)
    for _ in range(rng.choice([0, 0, 1, 1, 2])):
        how = rng.randrange(5)
        at = rng.randrange(len(steps)) if steps else 0
        if how == 0:
            steps.insert(at, (rng.choice('01'), ZEROS if rng.random() < 0.5 else ('junk', value(rng.randrange(1, 4)))))
        elif steps and how == 1:
            steps.pop(at)
        elif steps and how == 2:
            steps[at] = ('1' if steps[at][0] == '0' else '0', steps[at][1])
        elif steps and how == 3:
            steps[at] = (steps[at][0], ZEROS)
        elif steps:
            steps[at] = (steps[at][0], ('junk', value(rng.randrange(1, 4))))
    return steps


def twisted(rng, p):
    """A proof changed in some way, or as it was."""
    if rng.random() < 0.35:
        return p
    path = lambda q: None if q is None else (q[0] if rng.random() < 0.9 else key(rng.choice(KEYS)), q[1], made_up_path(rng, q[2]))
    if p[0] == 'presence':
        return ('presence',) + path(p[1:])
    left, right = path(p[2]), path(p[3])
    if rng.random() < 0.2:
        left, right = right, left
    if rng.random() < 0.2:
        left = None
    if rng.random() < 0.2:
        right = None
    return ('absence', p[1], left, right)


class Toy(Names):
    def term(self, h):
        b = toy_value(h)
        return 'zeros' if b == bytes(32) else value_term(b)


def checks(rng, number, count):
    names, rows = Toy(), []
    while len(rows) < count:
        _, _, _, _, s, keys = random_history(rng)
        for _ in range(6):
            k = rng.choice(keys + [key(rng.choice(KEYS), rng.choice([0, 1]))])
            p = model.answer(model.prove, s, s.latest, k)
            if p == 14:
                p = ('absence', k, None, None)  # the proof of an empty version before 2026-03
            if isinstance(p, int):
                continue
            p = twisted(rng, p)
            asked = k if rng.random() < 0.9 else rng.choice(keys)
            shown = p[1:] if p[0] == 'presence' else p[2] or p[3]
            root = toy_value(model.read_root(s, s.latest))
            if shown is not None and rng.random() < 0.4:
                root = model.climb(TOY, toy_path(shown))
            a = model.check_proof(TOY, root, asked, toy_proof(p))
            root = 'zeros' if root == bytes(32) else value_term(root)
            rows.append(f'try {root} {key_term(asked)} {proof_term(names, p)} ' + refused_or(a, verdict_term) if a != 11 else f'try {root} {key_term(asked)} {proof_term(names, p)} (refused 11)')
    text = HEAD.format(title=f'Checks of honest and made-up proofs under a toy hash, part {number}.', names='Try, try, TryHolds, value_of, toy_leaf, toy_inner, toy_hash')
    return text, names, [], rows, 'Try', 'TryHolds'


def lay_out(name, made):
    text, names, decls, rows, kind, holds = made
    toy = kind == 'Try'
    low = name.lower()
    out = [text]
    if not toy:
        out += ['module _ (leaf_hash inner_hash : Bytes → Bytes → Bytes) where', '']
        out += names.lines + decls
    pad = '' if toy else '  '
    arguments = '' if kind in ('Try', 'Comparison', 'Position') else ' leaf_hash inner_hash'
    body = f'\n{pad}    ∷ '.join(rows + ['[]'])
    out += [f'{pad}abbrev rows : List {kind}', f'{pad}rows =', f'{pad}    {body}', '']
    opened = {'Try': 'computed toy_hash', 'Comparison': 'computed compared'}.get(kind, 'computed')
    out += [f'{pad}pub {low} : All ({holds}{arguments}) rows' if arguments else f'{pad}pub {low} : All {holds} rows']
    out += [f'{pad}unfolding {opened}', f'{pad}{low} = {proof_of(len(rows), ROW[kind])}']
    return '\n'.join(out) + '\n'


def files():
    rng = random.Random(20240117)
    made = {}
    for n in range(1, 6):
        made[f'Histories{n}'] = lay_out(f'histories{n}', histories(rng, n, 30))
    for n in range(1, 6):
        made[f'Looks{n}'] = lay_out(f'looks{n}', looks(rng, n, 30))
    for n in range(1, 4):
        made[f'Tries{n}'] = lay_out(f'tries{n}', checks(rng, n, 250))
    made['Comparisons'] = lay_out('comparisons', comparisons(rng, 1, 40))
    for n in range(1, 3):
        made[f'Positions{n}'] = lay_out(f'positions{n}', positions(rng, n, 30))
    made['Lib'] = ''.join(f'pub mod {name}\n' for name in ['Desk', 'Steps', *made])
    return made


if __name__ == '__main__':
    OUT.mkdir(parents=True, exist_ok=True)
    for name, text in files().items():
        (OUT / f'{name}.antt').write_text(text)
