# SPDX-License-Identifier: Apache-2.0
"""A versioned, authenticated key-value store, and the check of its proofs: the proved library, called by ctypes.

>>> from grants import Store, name, verify
>>> store = Store.format(20)
>>> key, value = name("chords sonata"), name("read")
>>> first = store.apply(1, {key: value})
>>> second = store.apply(5, {key: None, name("tuner symphony"): value})
>>> then, now = store.prove(1, key), store.prove(5, key)
>>> verify(first.root, key, then) == value
True
>>> verify(second.root, key, now) is None
True
>>> verify(second.root, key, then)
Traceback (most recent call last):
    ...
grants.Refused: refused with 11: the proof is in form, but doesn't hold

The root must come from who signs it, the proof may come from anybody. What a store, a batch or a proof is worth is always the library's word."""

from .library import Message, Refused, name, read_message, sha256, shelf_verify, verify, verify_many, verify_palette, verify_pocket, version, write_message
from .refusals import REFUSALS
from .shelf import Shelf, ShelfRefused
from .statement import Seen, Statement, Verdict
from .store import Applied, Change, Figures, Finding, Report, Rescued, Store, batch, move_back, move_over, rescue

__all__ = [
    "Applied",
    "Change",
    "Figures",
    "Finding",
    "Message",
    "REFUSALS",
    "Refused",
    "Report",
    "Rescued",
    "Seen",
    "Shelf",
    "ShelfRefused",
    "Statement",
    "Store",
    "Verdict",
    "batch",
    "move_back",
    "move_over",
    "name",
    "read_message",
    "rescue",
    "sha256",
    "shelf_verify",
    "verify",
    "verify_many",
    "verify_palette",
    "verify_pocket",
    "version",
    "write_message",
]
