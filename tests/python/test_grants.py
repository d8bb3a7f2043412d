"""The package `grants` over the library: the rules' example, every number that a call can be refused with, lists, rescue, statements, threads."""

import datetime
import doctest
import os
import pickle
import re
import subprocess
import sys
import tempfile
import threading
import unittest

TOP = os.path.dirname(os.path.dirname(os.path.dirname(os.path.abspath(__file__))))
sys.path.insert(0, os.environ.get("GRANTS_PACKAGE", TOP + "/python"))

import grants  # noqa: E402
from grants import Change, Refused, Seen, Shelf, ShelfRefused, Statement, Store, Verdict, batch, library, move_back, move_over, name, rescue, sha256, shelf_verify  # noqa: E402
from grants import verify, verify_many, verify_palette, verify_pocket, version  # noqa: E402


def key(first, last=0):
    return bytes([first]) + bytes(30) + bytes([last])


A, B, C, D, E = key(0), key(0x40), key(0x60), key(0x80), key(0x80, 1)
V, W = b"\x07" * 32, b"\x08" * 32


def number(call, *given):
    """The number that a call is refused with, 0 where it isn't."""
    try:
        call(*given)
    except Refused as refused:
        return refused.number
    return 0


def desk(capacity=20):
    store = Store.format(capacity)
    store.apply(1, {A: V, B: V, C: V, D: V})
    return store


class TheRulesExample(unittest.TestCase):
    def test_each_step(self):
        store = Store.format(20)
        made = [store.apply_next(it)[::2] for it in ({A: V, B: V, C: V, D: V}, {B: None, C: W}, {}, {A: None}, {D: None}, {C: None})]
        self.assertEqual(made, [(1, 7), (2, 3), (3, 1), (4, 2), (5, 1), (6, 0)])
        self.assertEqual(store.root(6), bytes(32))
        self.assertEqual(store.prune(4), 10)
        self.assertEqual(store.apply(7, {E: V})[::2], (7, 1))
        self.assertEqual((store.prune(4), number(store.prune, 8)), (0, 8))
        self.assertEqual((store.capacity, store.oldest, store.latest), (20, 4, 7))
        store.check()

    def test_room(self):
        full = desk(7)
        before = full.to_bytes()
        self.assertEqual(number(full.apply, 2, {}), 7)
        self.assertEqual(full.to_bytes(), before)
        self.assertEqual(full.apply(2, {A: None, B: None, C: None, D: None}).new_records, 0)
        self.assertEqual(number(Store.format(5).apply, 1, {key(0): V, key(0x10): V}), 7)
        deep = Store.format(600)
        made = deep.apply(1, {D: V, E: V})
        self.assertEqual((made.new_records, len(deep.prove(1, D))), (258, 72 + 33 * 256))
        self.assertEqual(verify(made.root, D, deep.prove(1, D)), V)


class Refusals(unittest.TestCase):
    def test_each_number(self):
        store = desk()
        root = store.root(1)
        store.apply(2, {A: None, B: None, C: None, D: None})
        whole, proof = store.to_bytes(), store.prove(1, A)
        # Slot 2 has the leaf of A.
        at = library.HEADER_BYTES + 2 * library.SLOT_BYTES
        spoilt, off = bytearray(whole), bytearray(whole)
        spoilt[at] ^= 1
        lost = whole[:at] + bytes(library.SLOT_BYTES) + whole[at + library.SLOT_BYTES :]
        off[4] ^= 255
        cases = [
            (1, Store(whole[1:]).check, ()),
            (1, Store(b"").root, (0,)),
            (1, Store.format, (0,)),
            (1, Store.format, (10**9,)),
            (2, Store(off).root, (0,)),
            (3, Store(spoilt).check, ()),
            (3, Store(spoilt).get, (1, A)),
            (4, store.apply, (3, b"\0" * 72)),
            (4, store.apply, (3, {key(i, j): V for i in range(5) for j in range(205)})),
            (5, store.apply, (3, batch({B: V}) + batch({A: V}))),
            (18, store.apply, (2, {})),
            (7, Store.format(1).apply, (1, {A: V, B: V})),
            (8, store.root, (3,)),
            (9, store.prove, (1, A, len(proof) - 1)),
            (9, store.palette, (1, [A, A], 2 * len(proof) - 1)),
            (9, store.changes, (1, 2, 99, 71)),
            (10, verify, (root, A, proof[1:])),
            (10, verify, (root, A, proof + b"\0")),
            (11, verify, (root, B, proof)),
            (12, verify, (root[1:], A, proof)),
            (12, verify, (root, A + b"\0", proof)),
            (12, store.get, (1, b"")),
            (12, store.palette, (1, [A[1:]])),
            (12, store.palette, (1, [A] * 257)),
            (13, store.changes, (1, 2, 2)),
            (14, store.prove, (2, A)),
            (17, Store(lost).get, (1, A)),
        ]
        for wanted, call, given in cases:
            with self.subTest(wanted=wanted, call=call.__name__):
                self.assertEqual(number(call, *given), wanted)
        self.assertEqual(store.to_bytes(), whole)
        with self.assertRaises(Refused) as caught:
            Store(spoilt).get(1, A)
        self.assertEqual((caught.exception.slot, str(caught.exception)[-32:]), (2, "; the record in slot 2 is spoilt"))
        self.assertEqual(pickle.loads(pickle.dumps(caught.exception)).slot, 2)
        numbers = {wanted for wanted, _, _ in cases}
        self.assertEqual(numbers, numbers & set(grants.REFUSALS))
        self.assertTrue({1, 2, 3, 4, 5, 7, 8, 9, 10, 11, 12, 13, 14, 17, 18} <= numbers)

    def test_what_is_no_bytes_and_no_version(self):
        store = desk()
        for wanted, call, given in [
            (TypeError, store.get, (1, "00" * 32)),
            (TypeError, store.root, ("1",)),
            (TypeError, store.root, (True,)),
            (TypeError, Store, ([1, 2],)),
            (ValueError, store.root, (-1,)),
            (ValueError, store.root, (2**32,)),
            (ValueError, store.apply, (2**32 + 2, {})),
            (ValueError, store.apply, (2, {A: b"short"})),
            (ValueError, Store.format, (-1,)),
        ]:
            with self.subTest(call=call.__name__, given=given), self.assertRaises(wanted):
                call(*given)

    def test_sentences_are_the_header_s(self):
        with open(TOP + "/include/grants.h") as f:
            header = f.read()
        for its, sentence in grants.REFUSALS.items():
            self.assertTrue(re.search(r"(?m)^ \* +%d  " % its, header) and sentence in header, its)
        sizes = dict(re.findall(r"#define (GRANTS_\w+_BYTES) (\d+)", header))
        self.assertEqual((int(sizes["GRANTS_HEADER_BYTES"]), int(sizes["GRANTS_SLOT_BYTES"])), (library.HEADER_BYTES, library.SLOT_BYTES))

    def test_every_call_of_the_header_is_here(self):
        with open(TOP + "/include/grants.h") as f:
            calls = re.findall(r"(?m)^uint(?:32|64)_t grants_(\w+)\(", f.read())
        self.assertEqual(set(library._CALLS) - set(calls), set())
        self.assertEqual(set(calls) - set(library._CALLS) - LATER, set())
        self.assertEqual(set(library._CALLS) & LATER, set())


# Calls that the package doesn't have yet: whoever adds one to it takes it off this list.
LATER = set(
    "index index_check".split()
    + [call + "_indexed" for call in "apply at count format get palette prove prune root".split()]
)


class Later(unittest.TestCase):
    def test_counts(self):
        store = desk()
        self.assertEqual((store.count(0), store.count(1)), (0, 4))
        self.assertEqual([store.at(1, i) for i in range(4)], [(k, V) for k in (A, B, C, D)])
        self.assertEqual([number(store.at, 1, i) for i in (4, 2**64 - 1)], [20, 20])
        self.assertEqual((number(store.count, 2), number(store.at, 2, 0)), (8, 8))
        for wrong in (-1, 2**64, "0"):
            with self.assertRaises(ValueError):
                store.at(1, wrong)

    def test_moves(self):
        store = desk()
        old = move_back(store)
        self.assertEqual(len(old), 24 + 120 * 20)
        self.assertEqual(move_over(old).to_bytes(), store.to_bytes())
        self.assertEqual((number(move_over, old[:-1]), number(move_over, bytes(len(old)))), (1, 2))
        spoilt = bytearray(old)
        spoilt[24 + 120 * 6 + 60] ^= 1
        self.assertEqual(number(move_over, spoilt), 3)

    def test_figures(self):
        store = desk()
        store.apply(3, {B: None, C: W})
        report = store.figures(0, 3)
        # Version 1: four leaves, inner nodes at the root, at 0 and at 01; paths of 2, 3, 3 and 1 steps; version 2 reads as version 1.
        self.assertEqual([it[1:] for it in report.versions], [(0, 0, 0, 0), (4, 3, 3, 9), (4, 3, 3, 9), (3, 2, 2, 5)])
        self.assertEqual((report.distinct, report.records), (10, 19))
        self.assertEqual((number(store.figures, 1, 4), number(store.figures, 3, 1), number(store.figures, 0, 2000)), (8, 8, 8))

    def test_pocket(self):
        store = desk()
        proof = store.prove_pocket(1, A)
        self.assertEqual(proof, store.prove(1, A))
        self.assertEqual(verify_pocket(store.root(1), A, proof), V)
        deep = Store.format(600)
        deep.apply(1, {key(0): V, key(0, 1): V})
        self.assertEqual(number(deep.prove_pocket, 1, key(0)), 19)
        self.assertEqual(number(verify_pocket, deep.root(1), key(0), deep.prove(1, key(0))), 19)

    def test_many(self):
        store = desk()
        keys = [A, E, D, A]
        proofs = store.palette(1, keys)
        self.assertEqual(verify_many(store.root(1), keys, proofs), [V, None, V, V])
        self.assertEqual(verify_many(store.root(1), keys, b"".join(proofs)), [V, None, V, V])
        wrong = verify_many(store.root(1), keys, [proofs[1], proofs[1], proofs[2][:4] + bytes(len(proofs[2]) - 4), proofs[3]])
        self.assertEqual([it.number if isinstance(it, Refused) else it for it in wrong], [11, None, 10, V])
        self.assertEqual(verify_many(store.root(1), [], b""), [])
        self.assertEqual((number(verify_many, store.root(1), keys, proofs[:3]), number(verify_many, b"", keys, proofs)), (10, 12))
        self.assertEqual(number(verify_many, store.root(1), [A] * 257, proofs), 12)

    def test_finding(self):
        store = desk()
        self.assertIsNone(store.finding(1, A, store.prove(1, A)))
        self.assertEqual(number(store.finding, 1, A, store.prove(1, B)), 11)
        self.assertEqual(number(store.finding, 0, A, store.prove(1, A)), 14)

    def test_version(self):
        with open(TOP + "/include/grants.h") as f:
            said = int(re.search(r"#define GRANTS_VERSION (\w+)", f.read()).group(1), 16)
        self.assertEqual(version(), (said >> 24, said >> 16 & 255, said >> 8 & 255))
class Messages(unittest.TestCase):
    def test_there_and_back(self):
        store = grants.Store.format(20)
        first = store.apply(1, {grants.name("viola"): grants.name("may write")})
        proof = store.prove(1, grants.name("viola"))
        message = grants.write_message(proof, b"viola", [(b"viola", b"may write")])
        self.assertEqual(grants.read_message(message), grants.Message(proof, b"viola", [(b"viola", b"may write")]))
        self.assertEqual(grants.read_message(message).verify(first.root), grants.name("may write"))
        absent = grants.write_message(store.prove(1, grants.name("flute")), b"flute", [(b"viola", b"may write")])
        self.assertIsNone(grants.read_message(absent).verify(first.root))
        for number, leaves in [(15, [(b"viola", b"may read")]), (15, []), (15, [(b"viola", b"may write")] * 2), (15, [(b"viola", b"may write")] * 3)]:
            with self.assertRaises(grants.Refused) as refused:
                grants.write_message(proof, b"viola", leaves)
            self.assertEqual(refused.exception.number, number)
        for wrong in (message + b"\0", message[:-1], proof, b""):
            with self.assertRaises(grants.Refused) as refused:
                grants.read_message(wrong)
            self.assertEqual(refused.exception.number, 10)


class Proofs(unittest.TestCase):
    def test_palette_is_single_proofs(self):
        store = desk()
        root, keys = store.root(1), [D, E, A, D]
        proofs = store.palette(1, keys)
        self.assertEqual(proofs, [store.prove(1, it) for it in keys])
        self.assertEqual(verify_palette(root, keys, b"".join(proofs)), [V, None, V, V])
        self.assertEqual(store.palette(0, []), [])
        row = b"".join(proofs)
        for given in [(keys, row + b"\0"), (keys + [A], row), (keys[1:], row)]:
            self.assertIn(number(verify_palette, root, *given), (10, 11))
        self.assertEqual([len(it) for it in library.cut(b"\5\0\0\0\1\4\0\0\0\t\t")], [5, 4, 2])

    def test_of_a_shelf(self):
        """A shelf of one bit: A and its like in one part, nothing in the other; then both."""
        part = Store.format(20)
        part.apply(1, {A: V})
        upper = bytes([0x80]) + bytes(31)
        shelf = Store.format(20)
        root = shelf.apply(1, {bytes(32): part.root(1)}).root
        proof = shelf.prove(1, bytes(32)) + part.prove(1, A)
        self.assertEqual(shelf_verify(root, 1, A, proof), V)
        self.assertIsNone(shelf_verify(root, 1, upper, shelf.prove(1, upper)))
        cases = [
            (12, (root[1:], 13, A, proof)),
            (21, (root, 13, A, proof)),
            (10, (root, 1, A, shelf.prove(1, bytes(32)))),
            (10, (root, 1, A, proof + b"\0")),
            (11, (root, 1, upper, proof)),
            (11, (part.root(1), 1, A, proof)),
        ]
        for wanted, given in cases:
            self.assertEqual(number(shelf_verify, *given), wanted)

    def test_of_any_view(self):
        store = desk()
        proof, root = store.prove(1, A), store.root(1)
        self.assertEqual(verify(bytearray(root), memoryview(A), memoryview(b"x" + proof)[1:]), V)
        self.assertEqual(Store(memoryview(store.to_bytes())).root(1), root)

    def test_sha256(self):
        self.assertEqual(sha256(b"abc").hex(), "ba7816bf8f01cfea414140de5dae2223b00361a396177a9cb410ff61f20015ad")
        self.assertEqual(sha256(b"").hex()[:8], "e3b0c442")
        self.assertEqual(name("chords sonata").hex()[:8], "7455075c")


class Shelves(unittest.TestCase):
    """A shelf of two bits: A in its part 0, B and C in 1, D and E in 2, nothing in 3."""

    def setUp(self):
        parts = [Store.format(400) for _ in range(3)]
        listed = Store.format(40)
        top = lambda part: bytes([part << 6]) + bytes(31)  # noqa: E731
        for version, changes in [(1, [{A: V}, {B: V}, {}]), (4, [{}, {B: None, C: W}, {D: V}]), (6, [{A: None}, {}, {E: V}])]:
            changed = [part for part in range(3) if changes[part]]
            roots = {top(part): parts[part].apply(version, changes[part]).root for part in changed}
            listed.apply(version, {key: None if root == bytes(32) else root for key, root in roots.items()})
        self.files = {"shelf": b"# A shelf\nbits 2\nslots 20\n", "list": listed.to_bytes(), "list.book": b"", "part-3": b"", "part-003-9-0-1": b"newer than the list", "part-001-5-0-16385": b"more than a store holds"}
        for part, store in enumerate(parts):
            self.files["part-%03x-%d-0-%d" % (part, store.latest, store.count(store.latest))] = store.to_bytes()

    def shelf(self, **other):
        given = {name.replace("_", "-"): data for name, data in other.items()}
        return Shelf({name: lambda data=data: data for name, data in {**self.files, **given}.items() if data is not None})

    def test_reads(self):
        shelf = self.shelf()
        self.assertEqual((shelf.bits, shelf.oldest, shelf.latest), (2, 0, 6))
        keys = [A, B, C, D, E, key(0xC0)]
        for version, values in {0: [None] * 6, 1: [V, V, None, None, None, None], 5: [V, None, W, V, None, None], 6: [None, None, W, V, V, None]}.items():
            self.assertEqual([shelf.get(version, it) for it in keys], values)
            self.assertEqual(shelf.count(version), sum(it is not None for it in values))
            if version:
                row = shelf.palette(version, keys)
                self.assertEqual(row, [shelf.prove(version, it) for it in keys])
                self.assertEqual([shelf_verify(shelf.root(version), 2, *it) for it in zip(keys, row)], values)
        self.assertEqual(shelf.changes(1, 6), [Change(A, V, None), Change(B, V, None), Change(C, None, W), Change(D, None, V), Change(E, None, V)])
        self.assertEqual(shelf.changes(4, 5), [])

    def test_refusals(self):
        shelf = self.shelf()
        for wanted, call, given in [(8, shelf.root, (7,)), (8, shelf.get, (7, A)), (12, shelf.get, (1, A[1:])), (12, shelf.palette, (1, [A] * 257)), (14, shelf.prove, (0, A)), (8, shelf.count, (7,)), (8, shelf.changes, (0, 7))]:
            self.assertEqual(number(call, *given), wanted)
        lost, other = "part-001-4-0-1", "part-002-6-0-2"
        spoilt = bytearray(self.files[lost])
        spoilt[library.HEADER_BYTES] ^= 1
        for data, why in [(None, "lost"), (self.files[other], "another root"), (bytes(spoilt), "sound"), (b"", "length")]:
            shelf = self.shelf(**{lost: data})
            self.assertEqual((shelf.get(6, D), shelf.get(6, A)), (V, None))
            for call, given in [(shelf.get, (6, C)), (shelf.prove, (6, C)), (shelf.count, (6,)), (shelf.changes, (1, 6))]:
                with self.assertRaises(ShelfRefused) as refused:
                    call(*given)
                self.assertEqual((refused.exception.part, why in str(refused.exception)), (1, True), refused.exception)
        copy = pickle.loads(pickle.dumps(refused.exception))
        self.assertEqual((copy.number, copy.part, str(copy)), (refused.exception.number, 1, str(refused.exception)))

    def test_no_shelf(self):
        for given in [{"shelf": None}, {"list": None}, {"shelf": b"bits 13\nslots 20\n"}, {"shelf": b"bits 2\n"}, {"shelf": b"\xff"}]:
            self.assertRaises(ValueError, self.shelf, **given)
        with self.assertRaises(ShelfRefused) as refused:
            self.shelf(list=self.files["list"][1:])
        self.assertEqual((refused.exception.number, refused.exception.part), (1, None))
        # One that is made afresh: the new bits hold as long as nothing was published.
        fresh = b"bits 2\nslots 20\nfresh 5 20\n"
        self.assertEqual((self.shelf(shelf=fresh).bits, self.shelf(shelf=fresh, list=Store.format(40).to_bytes()).bits), (2, 5))

    @unittest.skipUnless("GRANTS_TOOL" in os.environ, "no tool")
    def test_of_the_tool(self):
        """The folder that the tool writes, and its own proofs."""

        def tool(*words, **how):
            return subprocess.run([os.environ["GRANTS_TOOL"]] + list(words), check=True, stdout=subprocess.PIPE, **how).stdout

        with tempfile.TemporaryDirectory() as place:
            folder = place + "/market"
            names = ["chords %d" % i for i in range(30)]
            tool("format", folder + "/", "--bits", "3")
            tool("apply", folder, "-", "--no-book", input="".join('+ "%s" "read"\n' % it for it in names).encode())
            tool("apply", folder, "-", "--no-book", input=b'- "chords 3"\n+ "chords 7" "write"\n')
            shelf = Shelf.open(folder)
            self.assertEqual((shelf.bits, shelf.latest, shelf.count(1), shelf.count(2)), (3, 2, 30, 29))
            self.assertEqual(shelf.root(2).hex(), tool("root", folder).decode().strip())
            self.assertEqual(len(shelf.changes(1, 2)), 2)
            for it in ["chords 3", "chords 7", "tuner"]:
                tool("prove", folder, '"%s"' % it, "--out", place + "/proof", "--force")
                with open(place + "/proof", "rb") as f:
                    self.assertEqual(shelf.prove(2, name(it)), f.read())


class Lists(unittest.TestCase):
    def test_changes(self):
        store = desk(400)
        store.apply(9, {B: None, C: W, E: V})
        self.assertEqual(store.changes(1, 9), [Change(B, V, None), Change(C, V, W), Change(E, None, V)])
        self.assertEqual(store.changes(9, 1), [Change(B, None, V), Change(C, W, V), Change(E, V, None)])
        self.assertEqual(store.changes(1, 5), [])

    def test_a_batch_is_sorted(self):
        self.assertEqual(batch([(B, None), (A, V)]), batch({A: V}) + batch({B: None}))
        self.assertEqual(number(Store.format(9).apply, 1, [(A, V), (A, W)]), 5)

    def test_numbers_up_to_the_last(self):
        store = desk()
        self.assertEqual(store.apply(2**32 - 1, {}).version, 2**32 - 1)
        self.assertEqual(number(store.apply_next, {}), 18)
        self.assertEqual(number(Store(b"").apply_next, {}), 1)

    def test_rescue(self):
        store = desk()
        signed = store.apply(2, {B: None}).root
        damaged = bytearray(store.to_bytes())
        # Slot 0 has B, which version 2 doesn't.
        damaged[: library.HEADER_BYTES + library.SLOT_BYTES] = b"\xff" * (library.HEADER_BYTES + library.SLOT_BYTES)
        back = rescue(damaged, 0, 2)
        back.store.check()
        self.assertEqual((back.first, back.store.root(2), back.store.oldest), (2, signed, 2))
        self.assertEqual(number(rescue, damaged, 3, 2), 2)
        self.assertEqual(number(rescue, damaged, 0, 1), 3)
        self.assertEqual(number(rescue, damaged[1:], 0, 2), 1)

    def test_threads(self):
        store, trouble = desk(2000), []

        def publish():
            for _ in range(20):
                store.apply_next({})

        def read():
            for _ in range(200):
                if store.get(1, A) != V:
                    trouble.append("another value")

        # apply_next reads the header and then publishes, so of publishers there is one.
        threads = [threading.Thread(target=it) for it in (publish, read, read)]
        for it in threads:
            it.start()
        for it in threads:
            it.join()
        self.assertEqual((trouble, store.latest), ([], 21))
        store.check()


TEXT = "the root of a grant store\nversion 2\nroot %s\npublished 2026-05-10T10:00:00Z\nmade 2026-05-10T10:30:00Z\nnot-after 2026-06-10T23:59:59Z\n" % ("ab" * 32)


def at(*words):
    return int(datetime.datetime(*words, tzinfo=datetime.timezone.utc).timestamp())


class Statements(unittest.TestCase):
    def test_read(self):
        read = Statement.read(TEXT)
        self.assertEqual(read, (2, b"\xab" * 32, at(2026, 5, 10, 10), at(2026, 5, 10, 10, 30), at(2026, 6, 10, 23, 59, 59), None))
        self.assertEqual(Statement.read(TEXT.encode()), read)

    def test_days(self):
        for year in list(range(1, 9999, 7)) + [2000, 1900, 2024, 1970, 9999]:
            for month, day in [(1, 1), (2, 28), (3, 1), (12, 31)]:
                text = TEXT.replace("2026-05-10T10:30:00Z", "%04d-%02d-%02dT23:59:59Z" % (year, month, day))
                self.assertEqual(Statement.read(text).made, (datetime.date(year, month, day) - datetime.date(1970, 1, 1)).days * 86400 + 86399)

    def test_no_statement(self):
        for hostile in (b"", b"\0", b"\xff" * 9, TEXT[:-1], TEXT + "\n", TEXT.replace("2026-05-10T10:30", "2026-02-29T10:30")):
            with self.assertRaises(ValueError):
                Statement.read(hostile)

    def test_what_an_editor_keeps(self):
        first = Statement(1, b"\1" * 32, None, 1000, 5000)
        second = Statement(2, b"\2" * 32, None, 2000, 6000)
        seen = Seen().after(first, 1500)
        self.assertEqual(seen, (1, b"\1" * 32, 1500))
        seen = seen.after(second, 1600)
        self.assertEqual(seen, (2, b"\2" * 32, 2000))
        self.assertIs(seen.judge(first, 2100), Verdict.OLDER)
        self.assertIs(seen.judge(second._replace(root=b"\3" * 32), 2100), Verdict.OTHER_ROOT)
        self.assertIs(seen.judge(second._replace(not_after=None), 2100), Verdict.UNDATED)
        self.assertEqual([seen.judge(second, now) for now in (0, 6000, 6001)], [Verdict.FRESH, Verdict.FRESH, Verdict.PAST])
        self.assertIs(Seen(time=5001).judge(first, 0), Verdict.PAST)
        self.assertIs(Seen().judge(first._replace(not_after=999), 0), Verdict.PAST)
        self.assertIs(seen.after(first, 9999), seen)
        # Once past, always past; and a clock that was wrong is not kept.
        self.assertEqual(seen.after(second, 9999), (2, b"\2" * 32, 6001))
        self.assertIs(seen.after(second, 9999).judge(second, 2100), Verdict.PAST)
        # Version 0 holds nothing, whoever signs it.
        self.assertIs(Seen().judge(first._replace(version=0), 0), Verdict.OTHER_ROOT)


def load_tests(loader, tests, pattern):
    tests.addTests(doctest.DocTestSuite(grants))
    return tests


if __name__ == "__main__":
    result = unittest.main(exit=False, verbosity=1).result
    bad = len(result.failures) + len(result.errors)
    print("%d passed, %d failed" % (result.testsRun - bad, bad))
    sys.exit(bad > 0)
