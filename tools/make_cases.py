#!/usr/bin/env python3
"""Makes the cases of the file reader and writer: model files, and the answer that each must get.

    python3 tools/make_cases.py

in the repository's root writes crates/cases/data/ (a file for each case, and `list` with
the names) and crates/cases/stdout: a line `NAME REFUSAL BLOCK` for each case (0 0: it loads), and a
line for each edit of model P.

Where a file loads, its line goes on with what comes of writing the model into buffers of four
lengths, ` | REFUSAL LENGTH WORD` for each. A buffer is the first bytes of a marked array; the word
is `kept` where the array is as it was, `same` where the file stands in it and all behind is marked.

The files are built by the rules of the format alone, which docs/RULES.md has. The two numbers after
each name, and the lines of the edits, are written by hand from them: nothing here reads a model
file. Quoted words name the rule that a case is about; docs/RULES.md may say it in other words.
"""

import copy
import pathlib

# ---- The format: blocks, records, the check

BLOCK = 512  # bytes of a block: 4 in front, 42 records of 12, 4 of the check
RECORD = 12
FULL = 42
CHECK = 508  # where the check stands

HEADER, STATES, EXITS, LIMITS = 1, 2, 3, 4
INTERNAL, SEND, RECEIVE, CLOSE, OPEN, ASK, END = 1, 2, 3, 4, 5, 6, 7
ANY = NONE = 255

# Where the fields of a record stand: one byte, or two with the low one first.
# `rest` is the first byte after the fields, `last` the last of the record.
FIRST = {"n": [0], "mask": [1, 2], "rest": [3], "last": [11]}
SUBJECT = {"subject": [0], "states": [1], "initial": [2], "rest": [3], "last": [11]}
STATE = {"subject": [0], "state": [1], "kind": [2], "exits": [3], "sender": [4], "type": [5],
         "duration": [6, 7], "timeout": [8], "cancel": [9], "mask": [10, 11]}
EXIT = {"subject": [0], "state": [1], "exit": [2], "target": [3], "sender": [4], "type": [5],
        "rest": [6], "last": [11]}
LIMIT = {"owner": [0], "sender": [1], "type": [2], "limit": [3], "rest": [4], "last": [11]}


def write(record, fields, values):
    for name, value in values.items():
        for i, byte in enumerate(fields[name]):
            record[byte] = value >> 8 * i & 255
    return record


def made(fields, **values):
    return write(bytearray(RECORD), fields, values)


def a_state(s, t, kind, exits, **more):
    values = {"sender": ANY, "type": ANY, "timeout": NONE, "cancel": NONE, **more}
    return made(STATE, subject=s, state=t, kind=kind, exits=exits, **values)


def an_exit(s, t, x, target, sender=ANY, type=ANY):
    return made(EXIT, subject=s, state=t, exit=x, target=target, sender=sender, type=type)


def a_limit(owner, sender, type, limit):
    return made(LIMIT, owner=owner, sender=sender, type=type, limit=limit)


def check(data, c=1):
    for byte in data:
        c = (33 * c + byte) % 2 ** 32
    return c.to_bytes(4, "little")


# "no bytes give 1; [0] gives 33; [1, 2] gives 1,124"
assert [int.from_bytes(check(d), "little") for d in (b"", b"\0", b"\1\2")] == [1, 33, 1124]


class Model:
    """The records of a model, by kind. `subjects` has (states, initial state) for each subject."""

    def __init__(self, mask, subjects, states, exits, limits=()):
        header = [made(FIRST, n=len(subjects), mask=mask)]
        for s, (count, initial) in enumerate(subjects):
            header.append(made(SUBJECT, subject=s, states=count, initial=initial))
        self.kinds = {HEADER: header, STATES: list(states), EXITS: list(exits), LIMITS: list(limits)}

    def find(self, kind, *key):
        return next(r for r in self.kinds[kind] if tuple(r[: len(key)]) == key)

    def blocks(self):
        """The blocks without their checks. A kind with no records has no block."""
        blocks = []
        for kind, records in self.kinds.items():
            for i in range(0, len(records), FULL):
                part = records[i : i + FULL]
                front = len(blocks).to_bytes(2, "little") + bytes([kind, len(part)])
                blocks.append(bytearray((front + b"".join(part)).ljust(CHECK, b"\0")))
        return blocks


# ---- Changes: of records, of blocks (both before the checks are made), of the file after them

OF_RECORDS, OF_BLOCKS, OF_FILE = 0, 1, 2


def file_of(model, changes):
    def changed(level, value):
        for own, change in changes:
            if own == level:
                change(value)
        return value

    records = changed(OF_RECORDS, copy.deepcopy(model))
    blocks = changed(OF_BLOCKS, records.blocks())
    return bytes(changed(OF_FILE, bytearray().join(b + check(b) for b in blocks)))


def first(**values):
    return OF_RECORDS, lambda m: write(m.kinds[HEADER][0], FIRST, values)


def subject(s, **values):
    return OF_RECORDS, lambda m: write(m.kinds[HEADER][s + 1], SUBJECT, values)


def state(s, t, **values):
    return OF_RECORDS, lambda m: write(m.find(STATES, s, t), STATE, values)


def exit_(s, t, x, **values):
    return OF_RECORDS, lambda m: write(m.find(EXITS, s, t, x), EXIT, values)


def limit(o, s, t, **values):
    return OF_RECORDS, lambda m: write(m.find(LIMITS, o, s, t), LIMIT, values)


def add(kind, *records):
    """The records after the others of their kind."""
    return OF_RECORDS, lambda m: m.kinds[kind].extend(copy.deepcopy(records))


def with_exit(s, t, kind, **more):
    """A state more, and an exit of it to state 0 that names nothing."""
    return add(STATES, a_state(s, t, kind, 1, **more)), add(EXITS, an_exit(s, t, 0, 0))


def drop(kind, *key):
    return OF_RECORDS, lambda m: m.kinds[kind].remove(m.find(kind, *key))


def drop_all(kind):
    return OF_RECORDS, lambda m: m.kinds[kind].clear()


def swap(kind, i):
    """Records i and i + 1 of a kind change places."""
    def change(m):
        r = m.kinds[kind]
        r[i], r[i + 1] = r[i + 1], r[i]
    return OF_RECORDS, change


def twice(kind, i):
    """Record i of a kind stands in the place of record i + 1 too."""
    def change(m):
        r = m.kinds[kind]
        r[i + 1] = bytearray(r[i])
    return OF_RECORDS, change


def put(b, at, *values):
    """Bytes of block b from `at` on; the check fits them."""
    def change(blocks):
        blocks[b][at : at + len(values)] = bytes(values)
    return OF_BLOCKS, change


def number(b, value):
    return put(b, 0, value & 255, value >> 8)


def kind(b, value):
    return put(b, 2, value)


def count(b, value):
    return put(b, 3, value)


def unused(b, value):
    """The first byte of block b that no record uses."""
    def change(blocks):
        blocks[b][4 + RECORD * blocks[b][3]] = value
    return OF_BLOCKS, change


def number_anew(blocks):
    for i, block in enumerate(blocks):
        block[0:2] = i.to_bytes(2, "little")


def move_block(b, to):
    """Block b stands in place `to`, and all blocks are numbered anew."""
    def change(blocks):
        blocks.insert(to, blocks.pop(b))
        number_anew(blocks)
    return OF_BLOCKS, change


def split(b, used):
    """Block b keeps `used` records; the others follow in a block of their own."""
    def change(blocks):
        old, cut = blocks[b], 4 + RECORD * used
        new = bytearray((old[:4] + old[cut:]).ljust(CHECK, b"\0"))
        new[3], old[3] = old[3] - used, used
        old[cut:] = bytes(CHECK - cut)
        blocks.insert(b + 1, new)
        number_anew(blocks)
    return OF_BLOCKS, change


def spoil(b, at, plus=1):
    """A byte of block b grows after the check was made."""
    def change(file):
        file[BLOCK * b + at] = (file[BLOCK * b + at] + plus) % 256
    return OF_FILE, change


def spoil_check(b, value):
    """Block b has another check."""
    def change(file):
        file[BLOCK * b + CHECK : BLOCK * (b + 1)] = value(file[BLOCK * b : BLOCK * b + CHECK])
    return OF_FILE, change


def cut_to(length):
    """The first bytes of the file; zeros behind it where it is shorter."""
    def change(file):
        file[:] = bytes(file[:length]).ljust(length, b"\0")
    return OF_FILE, change


# ---- Models that load

# Every kind of state and of exit. Block 1 has the states, 2 the exits, 3 the limits.
BASE = Model(
    0b11,
    [(8, 0), (2, 0)],
    [
        a_state(0, 0, INTERNAL, 2, duration=5, timeout=1, cancel=2),
        a_state(0, 1, SEND, 1, cancel=0, mask=0b10),
        a_state(0, 2, RECEIVE, 2, duration=259, timeout=7),
        a_state(0, 3, CLOSE, 1, sender=1, type=0),
        a_state(0, 4, OPEN, 1),
        a_state(0, 5, ASK, 2, sender=0, type=31),
        a_state(0, 6, INTERNAL, 1),
        a_state(0, 7, END, 0),
        a_state(1, 0, RECEIVE, 1),
        a_state(1, 1, END, 0),
    ],
    [
        an_exit(0, 0, 0, 1),
        an_exit(0, 0, 1, 2),
        an_exit(0, 1, 0, 2, type=0),
        an_exit(0, 2, 0, 3, sender=1, type=0),
        an_exit(0, 2, 1, 4, sender=1, type=31),
        an_exit(0, 3, 0, 4),
        an_exit(0, 4, 0, 5),
        an_exit(0, 5, 0, 6),
        an_exit(0, 5, 1, 0),
        an_exit(0, 6, 0, 7),
        an_exit(1, 0, 0, 1, sender=0, type=0),
    ],
    [
        a_limit(0, 0, ANY, 16),
        a_limit(0, 1, 0, 1),
        a_limit(0, 1, 31, 2),
        a_limit(0, ANY, ANY, 16),
        a_limit(1, 0, ANY, 1),
    ],
)

# "Model P": that of docs/RULES.md.
P = Model(
    0b11,
    [(3, 0), (2, 0)],
    [
        a_state(0, 0, INTERNAL, 1),
        a_state(0, 1, SEND, 1, cancel=0, mask=0b10),
        a_state(0, 2, END, 0),
        a_state(1, 0, RECEIVE, 1, duration=3, timeout=1),
        a_state(1, 1, END, 0),
    ],
    [
        an_exit(0, 0, 0, 1),
        an_exit(0, 1, 0, 2, type=0),
        an_exit(1, 0, 0, 1, sender=0, type=0),
    ],
    [a_limit(1, 0, ANY, 1)],
)

# One state, which leads to itself: the least that loads has three blocks.
LEAST = Model(1, [(1, 0)], [a_state(0, 0, INTERNAL, 1)], [an_exit(0, 0, 0, 0)])


def probe(kind, exits, **fields):
    """State 1 of subject 0 has the kind, as many exits, and else what its kind asks or `fields` say."""
    if kind == SEND:
        fields = {"mask": 0b10, **fields}
    names = {SEND: {"type": 0}, RECEIVE: {"sender": 1, "type": 0}}.get(kind, {})
    return Model(
        0b11,
        [(3, 0), (2, 0)],
        [
            a_state(0, 0, INTERNAL, 1),
            a_state(0, 1, kind, exits, **fields),
            a_state(0, 2, END, 0),
            a_state(1, 0, INTERNAL, 1),
            a_state(1, 1, END, 0),
        ],
        [an_exit(0, 0, 0, 1)]
        + [an_exit(0, 1, x, 2, **names) for x in range(exits)]
        + [an_exit(1, 0, 0, 1)],
    )


def chain(n, states):
    """n subjects, each with states that lead from one to the next, the last an end."""
    every = [(s, t) for s in range(n) for t in range(states)]
    return Model(
        0b1,
        [(states, 0)] * n,
        [a_state(s, t, INTERNAL, 1) if t < states - 1 else a_state(s, t, END, 0) for s, t in every],
        [an_exit(s, t, 0, t + 1) for s, t in every if t < states - 1],
    )


def tall(k):
    """6 subjects with k states, k exits and k rows each: 42 records of each kind for 7, 48 for 8."""
    states, exits, limits = [], [], []
    for s in range(6):
        for t in range(k):
            count = 2 if t == 0 else 0 if t == k - 1 else 1
            states.append(a_state(s, t, INTERNAL if count else END, count))
            exits += [an_exit(s, t, x, t + 1) for x in range(count)]
            limits.append(a_limit(s, 0, t, 1))
    return Model(1, [(k, 0)] * 6, states, exits, limits)


# 7 blocks: 1, 2 states, 3, 4 exits, 5, 6 limits; the first of each two is full.
TALL = tall(8)


def large(more=0):
    """16 subjects, 512 states, 1,024 exits and `more`, 128 rows; 43 blocks for up to 26 more.

    Blocks 1 to 13 have the states, 14 to 38 the exits, 39 to 42 the limits.
    """
    states, exits = [], []
    for s in range(16):
        kinds = [(INTERNAL, 8), (SEND, 1), (RECEIVE, 8), (CLOSE, 1), (OPEN, 1), (ASK, 2), (END, 0)]
        kinds += [(INTERNAL, 2)] * 18 + [(INTERNAL, 1)] * 7
        for t, (kind, count) in enumerate(kinds):
            if s == 15 and t > 6:
                extra = min(more, 8 - count)
                more, count = more - extra, count + extra
            mask = {"mask": 0xFFFF} if kind == SEND else {}
            names = {SEND: {"type": s}, RECEIVE: {"sender": 15 - s, "type": 31}}.get(kind, {})
            states.append(a_state(s, t, kind, count, **mask))
            exits += [an_exit(s, t, x, (t + 1 + x) % 32, **names) for x in range(count)]
    rows = [a_limit(o, 2 * i, ANY, 1 + i) for o in range(16) for i in range(8)]
    return Model(0xFFFF, [(32, 0)] * 16, states, exits, rows)


LARGE = large()


def rows(*owners):
    """BASE with as many rows for subjects 0 and 1 as `owners` says."""
    m = copy.deepcopy(BASE)
    m.kinds[LIMITS] = [a_limit(o, 0, t, 1) for o, k in enumerate(owners) for t in range(k)]
    return m


# ---- The cases

CASES = []


def case(name, refusal, block, model, *changes):
    """`model` None: there is no such file."""
    CASES.append((name, refusal, block, None if model is None else file_of(model, changes)))


def each_byte(name, model, b, record, at, answers):
    """254 and 255 in bytes of a record of block b: a pair of refusals for each byte of `at`.

    A `.` stands where the byte has that value already.
    """
    for k, pair in zip(at, answers.split(), strict=True):
        for value, refusal in zip((254, 255), pair):
            if refusal != ".":
                change = put(b, 4 + RECORD * record + k, value)
                case(f"{name}-{k}-{value}", int(refusal), b if refusal == "4" else 0, model, change)


# -- What loads.

case("base", 0, 0, BASE)
case("printing-p", 0, 0, P)
case("least", 0, 0, LEAST)
case("large", 0, 0, LARGE)  # 512 states, 1,024 exits, 128 rows in 43 blocks
case("tall", 0, 0, TALL)
case("no-limits", 0, 0, BASE, drop_all(LIMITS))
case("send-to-self", 0, 0, BASE, state(0, 1, mask=0b01))
case("send-to-all", 0, 0, BASE, state(0, 1, mask=0b11))
case("receive-from-self", 0, 0, BASE, exit_(0, 2, 0, sender=0))
case("receive-same-twice", 0, 0, BASE, exit_(0, 2, 1, type=0))
case("limit-from-self", 0, 0, BASE, limit(1, 0, ANY, sender=1))
case("nobody-ends", 0, 0, BASE, state(1, 1, kind=INTERNAL, exits=1), add(EXITS, an_exit(1, 1, 0, 0)))

# -- 1: "length not 1 to 43 whole blocks".

case("length-missing", 1, 0, None)
case("length-0", 1, 0, BASE, cut_to(0))
case("length-1", 1, 0, BASE, cut_to(1))
case("length-511", 1, 0, BASE, cut_to(511))
case("length-512", 5, 0, BASE, cut_to(512))  # a header alone: its states are missing
case("length-512-least", 5, 0, LEAST, cut_to(512))
case("length-513", 1, 0, BASE, cut_to(513))
case("length-1023", 1, 0, BASE, cut_to(1023))
case("length-1024", 5, 0, BASE, cut_to(1024))  # no exits
case("length-2047", 1, 0, BASE, cut_to(2047))
case("length-2049", 1, 0, BASE, cut_to(2049))
case("length-2560", 0, 0, TALL, cut_to(2560))  # no limits
case("length-42-blocks", 0, 0, LARGE, cut_to(42 * 512))  # two rows less
case("length-43-less-1", 1, 0, LARGE, cut_to(43 * 512 - 1))
case("length-43-and-1", 1, 0, LARGE, cut_to(43 * 512 + 1))
case("length-43-and-511", 1, 0, LARGE, cut_to(43 * 512 + 511))
case("length-44-zeros", 1, 0, LARGE, cut_to(44 * 512))
case("length-44-blocks", 1, 0, large(27))  # every block of the 44 is right by itself
case("length-45-blocks", 1, 0, LARGE, cut_to(45 * 512))
case("length-zeros", 2, 0, LEAST, cut_to(0), cut_to(512))  # 508 zeros have another check than 0

# -- 2: "a check is wrong"; block: "first such".

case("check-508", 2, 0, BASE, spoil(0, 508))  # each of the four bytes
case("check-509", 2, 0, BASE, spoil(0, 509))
case("check-510", 2, 0, BASE, spoil(0, 510))
case("check-511", 2, 0, BASE, spoil(0, 511))
case("check-508-less", 2, 0, BASE, spoil(0, 508, -1))
case("check-511-bit", 2, 0, BASE, spoil(0, 511, 128))
case("check-block-1", 2, 1, BASE, spoil(1, 508))
case("check-block-2", 2, 2, BASE, spoil(2, 510))
case("check-block-3", 2, 3, BASE, spoil(3, 511))
case("check-block-42", 2, 42, LARGE, spoil(42, 509))
case("check-two", 2, 1, BASE, spoil(1, 508), spoil(3, 508))
case("check-all", 2, 0, BASE, *[spoil(b, 508) for b in range(4)])
case("check-from-0", 2, 0, BASE, spoil_check(0, lambda d: check(d, 0)))  # "starts at 1"
case("check-high-first", 2, 0, BASE, spoil_check(0, lambda d: check(d)[::-1]))  # "low byte first"
case("check-one-byte-less", 2, 0, BASE, spoil_check(0, lambda d: check(d[:-1])))  # "over bytes 0-507"
case("check-from-record", 2, 0, BASE, spoil_check(0, lambda d: check(d[4:])))
case("check-backwards", 2, 0, BASE, spoil_check(0, lambda d: check(d[::-1])))  # "in order"
case("check-0", 2, 1, BASE, spoil_check(1, lambda d: bytes(4)))
case("check-of-number", 2, 2, BASE, spoil(2, 0))  # a byte of each part, with the old check
case("check-of-kind", 2, 2, BASE, spoil(2, 2))
case("check-of-count", 2, 2, BASE, spoil(2, 3))
case("check-of-record", 2, 2, BASE, spoil(2, 4))
case("check-of-507", 2, 2, BASE, spoil(2, 507))
case("check-same", 0, 0, BASE, spoil(1, 10, -1), spoil(1, 11, 33))  # a duration; 33 * -1 + 33 is 0
case("check-32", 2, 1, BASE, spoil(1, 10, -1), spoil(1, 11, 32))
case("check-34", 2, 1, BASE, spoil(1, 10, -1), spoil(1, 11, 34))

# -- 3: "block number ... is wrong". "bytes 0-1 its number from 0 (low byte first)".

case("number-0-is-1", 3, 0, BASE, number(0, 1))
case("number-0-is-256", 3, 0, BASE, number(0, 256))
case("number-1-is-0", 3, 1, BASE, number(1, 0))
case("number-1-is-2", 3, 1, BASE, number(1, 2))
case("number-1-is-256", 3, 1, BASE, number(1, 256))  # high byte first
case("number-1-is-257", 3, 1, BASE, number(1, 257))
case("number-3-is-65283", 3, 3, BASE, number(3, 65283))
case("number-3-is-4", 3, 3, BASE, number(3, 4))
case("number-swapped", 3, 1, BASE, number(1, 2), number(2, 1))
case("number-from-1", 3, 0, BASE, *[number(b, b + 1) for b in range(4)])
case("number-42-is-41", 3, 42, LARGE, number(42, 41))
case("number-two", 3, 2, BASE, number(2, 7), number(3, 7))

# "Kinds: 1 header (block 0 and only it), 2 states, 3 exits, 4 limits, in that order."

case("kind-0-is-0", 3, 0, BASE, kind(0, 0))
case("kind-0-is-2", 3, 0, BASE, kind(0, 2))
case("kind-0-is-3", 3, 0, BASE, kind(0, 3))
case("kind-0-is-4", 3, 0, BASE, kind(0, 4))
case("kind-0-is-5", 3, 0, BASE, kind(0, 5))
case("kind-0-is-255", 3, 0, BASE, kind(0, 255))
case("kind-no-header", 3, 0, BASE, move_block(0, 3))
case("kind-1-is-0", 3, 1, BASE, kind(1, 0))
case("kind-1-is-5", 3, 1, BASE, kind(1, 5))
case("kind-1-is-254", 3, 1, BASE, kind(1, 254))
case("kind-1-is-255", 3, 1, BASE, kind(1, 255))
case("kind-2-is-0", 3, 2, BASE, kind(2, 0))
case("kind-2-is-5", 3, 2, BASE, kind(2, 5))
case("kind-3-is-0", 3, 3, BASE, kind(3, 0))
case("kind-3-is-5", 3, 3, BASE, kind(3, 5))
case("kind-2-is-1", 3, 2, BASE, kind(2, 1))  # a second header
case("kind-3-is-1", 3, 3, BASE, kind(3, 1))
case("kind-1-is-1", 3, 0, BASE, kind(1, 1))  # here block 0 is not full and not the last of its kind
case("kind-1-is-1-full", 3, 1, chain(41, 1), kind(1, 1))  # 42 headers, then one more
case("kind-3-is-2", 3, 3, BASE, kind(3, 2))  # falls from 3 to 2
case("kind-exits-first", 3, 2, BASE, move_block(2, 1))
case("kind-limits-second", 3, 3, BASE, move_block(3, 2))
case("kind-limits-first", 3, 2, BASE, move_block(3, 1))
case("kind-states-last", 3, 3, BASE, move_block(1, 3))
case("kind-no-states", 5, 0, BASE, drop_all(STATES))
case("kind-no-exits", 5, 0, BASE, drop_all(EXITS))
case("kind-limits-alone", 5, 0, BASE, drop_all(STATES), drop_all(EXITS))

# "byte 3 the records used (1 to 42)".

case("count-0-is-0", 3, 0, BASE, count(0, 0))
case("count-0-is-43", 3, 0, BASE, count(0, 43))
case("count-0-is-255", 3, 0, BASE, count(0, 255))
case("count-1-is-0", 3, 1, BASE, count(1, 0))
case("count-1-is-43", 3, 1, BASE, count(1, 43))
case("count-1-is-254", 3, 1, BASE, count(1, 254))
case("count-2-is-0", 3, 2, BASE, count(2, 0))
case("count-2-is-43", 3, 2, BASE, count(2, 43))
case("count-2-is-255", 3, 2, BASE, count(2, 255))
case("count-3-is-0", 3, 3, BASE, count(3, 0))
case("count-3-is-43", 3, 3, BASE, count(3, 43))
case("count-3-is-255", 3, 3, BASE, count(3, 255))
case("count-0-of-zeros", 3, 3, BASE, put(3, 3, *bytes(61)))  # no rows, in a block of their own
case("count-42-to-43", 3, 1, tall(7), count(1, 43))
case("count-header-42", 4, 0, chain(41, 1))  # 42 is a right count, 41 subjects are too many
case("count-one-less", 3, 1, BASE, count(1, 9))  # the last record is then unused room
case("count-state-more", 4, 1, BASE, count(1, 11))  # a record of zeros
case("count-exit-more", 4, 2, BASE, count(2, 12))
case("count-limit-more", 4, 3, BASE, count(3, 6))

# "Every block but the last of its kind is full."

case("full-each", 0, 0, tall(7))  # 42 of each kind: full, and the last
case("full-and-1-limit", 0, 0, tall(7), add(LIMITS, a_limit(5, 1, 0, 1)))
case("full-and-1-exit", 0, 0, tall(7), state(5, 5, exits=2), add(EXITS, an_exit(5, 5, 1, 0)))
case("full-and-1-state", 0, 0, tall(7), subject(5, states=8), add(STATES, a_state(5, 7, END, 0)))
case("part-states-41", 3, 1, tall(7), split(1, 41))
case("part-states-1", 3, 1, BASE, split(1, 1))
case("part-exits-41", 3, 2, tall(7), split(2, 41))
case("part-exits-1", 3, 2, BASE, split(2, 1))
case("part-limits-41", 3, 3, tall(7), split(3, 41))
case("part-limits-4", 3, 3, BASE, split(3, 4))
case("part-middle", 3, 15, LARGE, drop_all(LIMITS), split(15, 40))
case("part-second", 3, 2, TALL, split(2, 3))
case("part-then-0", 3, 1, BASE, split(1, 5), count(2, 0))
case("part-two", 3, 1, BASE, split(3, 2), split(1, 5))
case("part-kind", 3, 2, BASE, kind(3, 3))  # limits called exits: block 2 is not the last of its kind

# "Unused room is zero."

case("room-header-first", 3, 0, BASE, unused(0, 1))
case("room-header-507", 3, 0, BASE, put(0, 507, 1))
case("room-states-first", 3, 1, BASE, unused(1, 255))
case("room-states-507", 3, 1, BASE, put(1, 507, 255))
case("room-exits-first", 3, 2, BASE, unused(2, 1))
case("room-exits-507", 3, 2, BASE, put(2, 507, 128))
case("room-limits-first", 3, 3, BASE, unused(3, 1))
case("room-limits-507", 3, 3, BASE, put(3, 507, 1))
case("room-middle", 3, 3, BASE, put(3, 300, 1))
case("room-41-first", 3, 3, tall(7), drop(LIMITS, 5, 0, 6), put(3, 496, 1))
case("room-41-last", 3, 3, tall(7), drop(LIMITS, 5, 0, 6), put(3, 507, 1))
case("room-41", 0, 0, tall(7), drop(LIMITS, 5, 0, 6))
case("room-42-limits", 4, 3, tall(7), put(3, 507, 1))  # a full block has none: a record's last byte
case("room-42-exits", 4, 2, tall(7), put(2, 507, 1))
case("room-42-states", 4, 1, tall(7), put(1, 507, 1))

# -- 4, header: "0 subjects n; 1-2 start mask; rest 0", "1 to 16 subjects".

case("n-0", 4, 0, Model(1, [], [], []))
case("n-0-of-1", 4, 0, LEAST, first(n=0))
case("n-1", 0, 0, chain(1, 2))
case("n-16", 0, 0, chain(16, 2))
case("n-17", 4, 0, chain(17, 2))
case("n-17-of-16", 4, 0, chain(16, 2), first(n=17))
case("n-41", 4, 0, chain(41, 2))
case("n-255", 4, 0, chain(2, 2), first(n=255))
case("n-not-zero-rest", 4, 0, BASE, first(rest=1))
case("n-not-zero-last", 4, 0, BASE, first(last=1))

# "header count is not n + 1 or its subjects are out of order".

case("header-few", 4, 0, BASE, drop(HEADER, 1, 2))
case("header-fewest", 4, 0, BASE, drop(HEADER, 1, 2), drop(HEADER, 0, 8))
case("header-many", 4, 0, BASE, add(HEADER, made(SUBJECT, subject=2, states=1)))
case("header-n-less", 4, 0, BASE, first(n=1))
case("header-n-more", 4, 0, BASE, first(n=3))
case("header-swapped", 4, 0, BASE, swap(HEADER, 1))
case("header-twice", 4, 0, BASE, subject(1, subject=0))
case("header-from-1", 4, 0, BASE, subject(0, subject=1), subject(1, subject=2))
case("header-gap", 4, 0, BASE, subject(1, subject=2))
case("header-last-gap", 4, 0, chain(16, 2), subject(15, subject=16))
case("header-rest", 4, 0, BASE, subject(0, rest=1))
case("header-last", 4, 0, BASE, subject(1, last=1))

# "1 to 32 states each". LEAST has 1.

NO_SUBJECT_1 = [drop(STATES, 1, 0), drop(STATES, 1, 1), drop(EXITS, 1, 0, 0)]
case("states-0", 4, 0, BASE, subject(1, states=0))
case("states-0-none", 4, 0, BASE, subject(1, states=0), *NO_SUBJECT_1)
case("states-32", 0, 0, chain(1, 32))
case("states-33", 4, 0, chain(1, 33))
case("states-33-of-32", 4, 0, chain(1, 32), subject(0, states=33))
case("states-33-second", 4, 0, chain(2, 2), subject(1, states=33))

# -- 4, states: "1 internal, 1 to 8; 2 send, 1; 3 receive, 1 to 8; 4 close, 1; 5 open, 1;
# 6 ask-empty, 2; 7 end, 0".

case("exits-kind-0-0", 4, 1, probe(0, 0))
case("exits-kind-0-1", 4, 1, probe(0, 1))
case("exits-internal-0", 4, 1, probe(INTERNAL, 0))
case("exits-internal-1", 0, 0, probe(INTERNAL, 1))
case("exits-internal-8", 0, 0, probe(INTERNAL, 8))
case("exits-internal-9", 4, 1, probe(INTERNAL, 9))
case("exits-send-0", 4, 1, probe(SEND, 0))
case("exits-send-1", 0, 0, probe(SEND, 1))
case("exits-send-2", 4, 1, probe(SEND, 2))
case("exits-receive-0", 4, 1, probe(RECEIVE, 0))
case("exits-receive-1", 0, 0, probe(RECEIVE, 1))
case("exits-receive-8", 0, 0, probe(RECEIVE, 8))
case("exits-receive-9", 4, 1, probe(RECEIVE, 9))
case("exits-close-0", 4, 1, probe(CLOSE, 0))
case("exits-close-1", 0, 0, probe(CLOSE, 1))
case("exits-close-2", 4, 1, probe(CLOSE, 2))
case("exits-open-0", 4, 1, probe(OPEN, 0))
case("exits-open-1", 0, 0, probe(OPEN, 1))
case("exits-open-2", 4, 1, probe(OPEN, 2))
case("exits-ask-1", 4, 1, probe(ASK, 1))
case("exits-ask-2", 0, 0, probe(ASK, 2))
case("exits-ask-3", 4, 1, probe(ASK, 3))
case("exits-end-0", 0, 0, probe(END, 0))
case("exits-end-1", 4, 1, probe(END, 1))
case("exits-kind-8-0", 4, 1, probe(8, 0))
case("exits-kind-8-1", 4, 1, probe(8, 1))
case("exits-kind-255-0", 4, 1, probe(255, 0))
case("exits-kind-255-1", 4, 1, probe(255, 1))
case("exits-internal-255", 4, 1, probe(INTERNAL, 1), state(0, 1, exits=255))

# "Only kinds 4 to 6 use the state's sender and type; in the others both are 255."

case("names-internal-sender", 4, 1, probe(INTERNAL, 1, sender=0))
case("names-internal-type", 4, 1, probe(INTERNAL, 1, type=0))
case("names-send-sender", 4, 1, probe(SEND, 1, sender=1))
case("names-send-type", 4, 1, probe(SEND, 1, type=31))
case("names-receive-sender", 4, 1, probe(RECEIVE, 1, sender=1))
case("names-receive-type", 4, 1, probe(RECEIVE, 1, type=0))
case("names-end-sender", 4, 1, probe(END, 0, sender=0))
case("names-end-type", 4, 1, probe(END, 0, type=0))
case("names-close-both", 0, 0, probe(CLOSE, 1, sender=1, type=0))
case("names-open-both", 0, 0, probe(OPEN, 1, sender=0, type=31))
case("names-ask-both", 0, 0, probe(ASK, 2, sender=1, type=31))

# "message types 0 to 31"; "Value 255 means 'any' in a state's or limit's sender and type".

case("type-close-31", 0, 0, probe(CLOSE, 1, type=31))
case("type-close-32", 4, 1, probe(CLOSE, 1, type=32))
case("type-close-254", 4, 1, probe(CLOSE, 1, type=254))
case("type-close-255", 0, 0, probe(CLOSE, 1, sender=0, type=255))
case("type-open-31", 0, 0, probe(OPEN, 1, type=31))
case("type-open-32", 4, 1, probe(OPEN, 1, type=32))
case("type-open-254", 4, 1, probe(OPEN, 1, type=254))
case("type-open-255", 0, 0, probe(OPEN, 1, sender=0, type=255))
case("type-ask-31", 0, 0, probe(ASK, 2, type=31))
case("type-ask-32", 4, 1, probe(ASK, 2, type=32))
case("type-ask-254", 4, 1, probe(ASK, 2, type=254))
case("type-ask-255", 0, 0, probe(ASK, 2, sender=0, type=255))
case("type-send-31", 0, 0, probe(SEND, 1), exit_(0, 1, 0, type=31))
case("type-send-32", 4, 2, probe(SEND, 1), exit_(0, 1, 0, type=32))
case("type-send-254", 4, 2, probe(SEND, 1), exit_(0, 1, 0, type=254))
case("type-send-255", 4, 2, probe(SEND, 1), exit_(0, 1, 0, type=255))
case("type-receive-31", 0, 0, probe(RECEIVE, 1), exit_(0, 1, 0, type=31))
case("type-receive-32", 4, 2, probe(RECEIVE, 1), exit_(0, 1, 0, type=32))
case("type-receive-254", 4, 2, probe(RECEIVE, 1), exit_(0, 1, 0, type=254))
case("type-receive-255", 4, 2, probe(RECEIVE, 1), exit_(0, 1, 0, type=255))
case("type-limit-31", 0, 0, P, limit(1, 0, ANY, type=31))
case("type-limit-32", 4, 3, P, limit(1, 0, ANY, type=32))
case("type-limit-254", 4, 3, P, limit(1, 0, ANY, type=254))
case("type-limit-255", 0, 0, P, limit(1, 0, ANY, type=255, limit=2))

# 5: "a ... sender ... that doesn't exist": 1 does (in BASE as a receive's), 2 does not.

case("sender-close-1", 0, 0, probe(CLOSE, 1, sender=1))
case("sender-close-2", 5, 0, probe(CLOSE, 1, sender=2))
case("sender-close-254", 5, 0, probe(CLOSE, 1, sender=254))
case("sender-open-1", 0, 0, probe(OPEN, 1, sender=1))
case("sender-open-2", 5, 0, probe(OPEN, 1, sender=2))
case("sender-open-254", 5, 0, probe(OPEN, 1, sender=254))
case("sender-ask-1", 0, 0, probe(ASK, 2, sender=1))
case("sender-ask-2", 5, 0, probe(ASK, 2, sender=2))
case("sender-ask-254", 5, 0, probe(ASK, 2, sender=254))
case("sender-receive-2", 5, 0, BASE, exit_(0, 2, 0, sender=2))
case("sender-receive-16", 5, 0, BASE, exit_(0, 2, 0, sender=16))
case("sender-limit-1", 0, 0, P, limit(1, 0, ANY, sender=1))
case("sender-limit-2", 5, 0, P, limit(1, 0, ANY, sender=2))
case("sender-limit-254", 5, 0, P, limit(1, 0, ANY, sender=254))
case("sender-limit-255", 0, 0, P, limit(1, 0, ANY, sender=255))
case("sender-15-of-16", 0, 0, LARGE, exit_(15, 2, 7, sender=15))
case("sender-16-of-16", 5, 0, LARGE, exit_(15, 2, 7, sender=16))

# "Only kinds 1 to 3 may have a timeout or cancel target. The duration is 0 exactly when the
# timeout target is 255."

case("timeout-internal", 0, 0, probe(INTERNAL, 1, duration=1, timeout=2))
case("timeout-internal-no-time", 4, 1, probe(INTERNAL, 1, timeout=2))
case("timeout-internal-no-target", 4, 1, probe(INTERNAL, 1, duration=1))
case("timeout-internal-65535", 0, 0, probe(INTERNAL, 1, duration=65535, timeout=2))
case("timeout-send", 0, 0, probe(SEND, 1, duration=1, timeout=2))
case("timeout-send-no-time", 4, 1, probe(SEND, 1, timeout=2))
case("timeout-send-no-target", 4, 1, probe(SEND, 1, duration=1))
case("timeout-receive", 0, 0, probe(RECEIVE, 1, duration=1, timeout=2))
case("timeout-receive-no-time", 4, 1, probe(RECEIVE, 1, timeout=2))
case("timeout-receive-no-target", 4, 1, probe(RECEIVE, 1, duration=1))
case("timeout-receive-256", 0, 0, probe(RECEIVE, 1, duration=256, timeout=2))
case("timeout-256-no-target", 4, 1, probe(RECEIVE, 1, duration=256))
case("timeout-to-0", 0, 0, probe(INTERNAL, 1, duration=1, timeout=0))
case("timeout-to-0-no-time", 4, 1, probe(INTERNAL, 1, timeout=0))
case("timeout-close", 4, 1, probe(CLOSE, 1, duration=1, timeout=2))
case("timeout-close-no-time", 4, 1, probe(CLOSE, 1, timeout=2))
case("timeout-close-no-target", 4, 1, probe(CLOSE, 1, duration=1))
case("timeout-open", 4, 1, probe(OPEN, 1, duration=1, timeout=2))
case("timeout-open-no-time", 4, 1, probe(OPEN, 1, timeout=2))
case("timeout-open-no-target", 4, 1, probe(OPEN, 1, duration=256))
case("timeout-ask", 4, 1, probe(ASK, 2, duration=1, timeout=2))
case("timeout-ask-no-time", 4, 1, probe(ASK, 2, timeout=0))
case("timeout-ask-no-target", 4, 1, probe(ASK, 2, duration=1))
case("timeout-end", 4, 1, probe(END, 0, duration=1, timeout=2))
case("timeout-end-no-time", 4, 1, probe(END, 0, timeout=2))
case("timeout-end-no-target", 4, 1, probe(END, 0, duration=1))
case("cancel-internal", 0, 0, probe(INTERNAL, 1, cancel=2))
case("cancel-send", 0, 0, probe(SEND, 1, cancel=2))
case("cancel-receive", 0, 0, probe(RECEIVE, 1, cancel=0))
case("cancel-close", 4, 1, probe(CLOSE, 1, cancel=2))
case("cancel-open", 4, 1, probe(OPEN, 1, cancel=0))
case("cancel-ask", 4, 1, probe(ASK, 2, cancel=2))
case("cancel-end", 4, 1, probe(END, 0, cancel=0))
case("timeout-and-cancel", 0, 0, probe(SEND, 1, duration=2, timeout=1, cancel=1))

# "The mask is non-zero for a send and 0 otherwise."

case("mask-send-0", 4, 1, probe(SEND, 1, mask=0))
case("mask-send-1", 0, 0, probe(SEND, 1, mask=1))
case("mask-internal-1", 4, 1, probe(INTERNAL, 1, mask=1))
case("mask-internal-256", 4, 1, probe(INTERNAL, 1, mask=256))
case("mask-receive", 4, 1, probe(RECEIVE, 1, mask=1))
case("mask-close", 4, 1, probe(CLOSE, 1, mask=0b10))
case("mask-open", 4, 1, probe(OPEN, 1, mask=0x8000))
case("mask-ask", 4, 1, probe(ASK, 2, mask=1))
case("mask-end", 4, 1, probe(END, 0, mask=1))

# -- 4, exits: "A receive's exit names sender and type (never 255); a send's exit has sender 255
# and a type; other exits have 255 in both."

case("exit-receive-any-sender", 4, 2, probe(RECEIVE, 1), exit_(0, 1, 0, sender=255))
case("exit-receive-any", 4, 2, probe(RECEIVE, 1), exit_(0, 1, 0, sender=255, type=255))
case("exit-receive-8th", 4, 2, probe(RECEIVE, 8), exit_(0, 1, 7, sender=255))
case("exit-send-sender-0", 4, 2, probe(SEND, 1), exit_(0, 1, 0, sender=0))
case("exit-send-sender-254", 4, 2, probe(SEND, 1), exit_(0, 1, 0, sender=254))
case("exit-internal-sender", 4, 2, probe(INTERNAL, 1), exit_(0, 1, 0, sender=0))
case("exit-internal-type", 4, 2, probe(INTERNAL, 1), exit_(0, 1, 0, type=0))
case("exit-internal-both", 4, 2, probe(INTERNAL, 1), exit_(0, 1, 0, sender=0, type=0))
case("exit-close-sender", 4, 2, probe(CLOSE, 1), exit_(0, 1, 0, sender=1))
case("exit-close-type", 4, 2, probe(CLOSE, 1), exit_(0, 1, 0, type=31))
case("exit-open-sender", 4, 2, probe(OPEN, 1), exit_(0, 1, 0, sender=254))
case("exit-open-type", 4, 2, probe(OPEN, 1), exit_(0, 1, 0, type=254))
case("exit-ask-sender", 4, 2, probe(ASK, 2), exit_(0, 1, 1, sender=0))
case("exit-ask-type", 4, 2, probe(ASK, 2), exit_(0, 1, 1, type=0))
case("exit-rest", 4, 2, BASE, exit_(0, 0, 0, rest=1))
case("exit-last", 4, 2, BASE, exit_(0, 0, 0, last=1))
case("exit-rest-receive", 4, 2, BASE, exit_(1, 0, 0, rest=2))
case("exit-last-receive", 4, 2, BASE, exit_(1, 0, 0, last=128))
case("exit-of-second-states", 4, 4, TALL, exit_(5, 6, 0, sender=0))  # its state is in block 2
case("exit-type-second-states", 4, 4, TALL, exit_(5, 6, 0, type=1))
case("exit-large-first", 4, 14, LARGE, exit_(0, 0, 0, sender=0))
case("exit-large-last", 4, 38, LARGE, exit_(15, 31, 0, type=0))
case("exit-large-middle", 4, 25, LARGE, exit_(7, 2, 7, sender=255))  # record 466 of the exits

# -- 4, limits: "3 limit 1 to 16; rest 0".

case("limit-0", 4, 3, P, limit(1, 0, ANY, limit=0))
case("limit-1", 0, 0, BASE, limit(0, 1, 31, limit=1))
case("limit-16", 0, 0, P, limit(1, 0, ANY, limit=16))
case("limit-17", 4, 3, P, limit(1, 0, ANY, limit=17))
case("limit-255", 4, 3, P, limit(1, 0, ANY, limit=255))
case("limit-0-first", 4, 3, BASE, limit(0, 0, ANY, limit=0))
case("limit-17-middle", 4, 3, BASE, limit(0, 1, 31, limit=17))
case("limit-rest", 4, 3, BASE, limit(0, 1, 0, rest=1))
case("limit-last", 4, 3, BASE, limit(0, 1, 0, last=1))
case("limit-large-17", 4, 42, LARGE, limit(15, 14, ANY, limit=17))

# -- 4: "records are not strictly ascending by subject, state, exit or by owner, sender, type".

case("order-states-equal", 4, 1, BASE, twice(STATES, 0))
case("order-states-equal-last", 4, 1, BASE, add(STATES, a_state(1, 1, END, 0)))
case("order-states-key", 4, 1, BASE, state(0, 1, state=0))  # the kind is not part of it
case("order-states-down", 4, 1, BASE, swap(STATES, 3))
case("order-states-subject", 4, 1, BASE, swap(STATES, 7))
case("order-states-subject-first", 4, 1, BASE, swap(STATES, 8))
case("order-exits-equal", 4, 2, BASE, twice(EXITS, 5))
case("order-exits-key", 4, 2, BASE, exit_(0, 0, 1, exit=0))  # the target is not part of it
case("order-exits-down", 4, 2, BASE, swap(EXITS, 0))  # exit 1, then exit 0
case("order-exits-state", 4, 2, BASE, swap(EXITS, 1))  # by state before exit
case("order-exits-subject", 4, 2, BASE, swap(EXITS, 9))  # by subject before state
case("order-limits-equal", 4, 3, BASE, twice(LIMITS, 1))
case("order-limits-key", 4, 3, BASE, limit(0, 1, 31, type=0, limit=9))  # the limit is not part of it
case("order-limits-type", 4, 3, BASE, swap(LIMITS, 1))
case("order-limits-sender", 4, 3, BASE, swap(LIMITS, 0))  # by sender before type
case("order-limits-owner", 4, 3, BASE, swap(LIMITS, 3))  # by owner before sender
case("order-limits-any-first", 4, 3, BASE, swap(LIMITS, 2))  # 255 is the greatest sender
case("order-states-blocks-equal", 4, 2, TALL, twice(STATES, 41))  # across blocks: the later one
case("order-states-blocks-down", 4, 2, TALL, swap(STATES, 41))
case("order-states-before-end", 4, 1, TALL, swap(STATES, 40))
case("order-states-after-start", 4, 2, TALL, swap(STATES, 42))
case("order-exits-blocks-equal", 4, 4, TALL, twice(EXITS, 41))
case("order-exits-blocks-down", 4, 4, TALL, swap(EXITS, 41))
case("order-exits-before-end", 4, 3, TALL, swap(EXITS, 40))
case("order-limits-blocks-equal", 4, 6, TALL, twice(LIMITS, 41))
case("order-limits-blocks-down", 4, 6, TALL, swap(LIMITS, 41))
case("order-limits-before-end", 4, 5, TALL, swap(LIMITS, 40))
case("order-state-32", 5, 0, BASE, state(0, 7, state=32))  # ascends: (0, 6), (0, 32), (1, 0)
case("order-state-255", 5, 0, BASE, state(0, 7, state=255))
case("order-exit-255", 5, 0, BASE, exit_(0, 0, 1, exit=255))  # (0, 0, 0), (0, 0, 255), (0, 1, 0)
case("order-exit-state-255", 5, 0, BASE, exit_(0, 6, 0, state=255))
case("order-large-states", 4, 13, LARGE, swap(STATES, 503))
case("order-large-exits", 4, 38, LARGE, swap(EXITS, 1022))
case("order-large-limits", 4, 42, LARGE, swap(LIMITS, 125))

# -- 5: "a state or exit missing or too many".

case("state-missing", 5, 0, BASE, drop(STATES, 0, 7))
case("state-missing-first", 5, 0, BASE, drop(STATES, 0, 0))
case("state-missing-last", 5, 0, BASE, drop(STATES, 1, 1))
case("state-missing-and-exits", 5, 0, BASE, drop(STATES, 0, 6), drop(EXITS, 0, 6, 0))
case("state-missing-subject", 5, 0, BASE, *NO_SUBJECT_1)
case("state-missing-by-header", 5, 0, BASE, subject(1, states=3))
case("state-missing-only", 5, 0, LEAST, state(0, 0, state=1))
case("state-missing-only-exit", 5, 0, LEAST, state(0, 0, state=1), exit_(0, 0, 0, state=1))
case("state-missing-only-subject", 5, 0, LEAST, state(0, 0, subject=1), exit_(0, 0, 0, subject=1))
case("state-missing-large", 5, 0, LARGE, drop(STATES, 15, 6))
case("state-many", 5, 0, BASE, add(STATES, a_state(1, 2, END, 0)))
case("state-many-gap", 5, 0, BASE, add(STATES, a_state(1, 31, END, 0)))
case("state-many-33rd", 5, 0, chain(1, 32), add(STATES, a_state(0, 32, END, 0)))
case("state-many-by-header", 5, 0, BASE, subject(0, states=7))
case("state-many-and-missing", 5, 0, BASE, state(1, 1, state=2))
case("exit-missing", 5, 0, BASE, drop(EXITS, 0, 6, 0))
case("exit-missing-first", 5, 0, BASE, drop(EXITS, 0, 0, 0))
case("exit-missing-second", 5, 0, BASE, drop(EXITS, 0, 0, 1))
case("exit-missing-last", 5, 0, BASE, drop(EXITS, 1, 0, 0))
case("exit-missing-by-state", 5, 0, BASE, state(0, 6, exits=2))
case("exit-missing-large", 5, 0, LARGE, drop(EXITS, 15, 31, 0))
case("exit-many", 5, 0, BASE, add(EXITS, an_exit(1, 0, 1, 1, sender=0, type=1)))
case("exit-many-gap", 5, 0, BASE, exit_(1, 0, 0, exit=1))
case("exit-many-of-end", 5, 0, BASE, add(EXITS, an_exit(1, 1, 0, 0)))
case("exit-many-by-state", 5, 0, BASE, state(0, 0, exits=1))
case("exit-many-8", 5, 0, probe(INTERNAL, 8), exit_(0, 1, 7, exit=8))
case("exit-many-9th", 5, 0, probe(INTERNAL, 9), state(0, 1, exits=8))

# "a subject, target, state, sender or receiver that doesn't exist".

case("subject-of-state", 5, 0, BASE, add(STATES, a_state(2, 0, END, 0)))
case("subject-of-state-exit", 5, 0, BASE, *with_exit(2, 0, INTERNAL))
case("subject-of-exit", 5, 0, BASE, add(EXITS, an_exit(2, 0, 0, 0)))
case("subject-16-of-16", 5, 0, chain(16, 2), add(STATES, a_state(16, 0, END, 0)))
case("state-of-exit", 5, 0, BASE, add(EXITS, an_exit(1, 2, 0, 0)))
case("owner-2", 5, 0, P, limit(1, 0, ANY, owner=2))
case("owner-2-fourth", 5, 0, BASE, drop(LIMITS, 0, 1, 31), limit(1, 0, ANY, owner=2))
case("owner-0", 0, 0, P, limit(1, 0, ANY, owner=0))
case("owner-15-of-16", 0, 0, chain(16, 2), add(LIMITS, a_limit(15, 15, 0, 1)))
case("owner-16-of-16", 5, 0, chain(16, 2), add(LIMITS, a_limit(16, 15, 0, 1)))
case("target-7", 0, 0, BASE, exit_(0, 0, 0, target=7))
case("target-8", 5, 0, BASE, exit_(0, 0, 0, target=8))
case("target-own-subject", 5, 0, BASE, exit_(1, 0, 0, target=2))  # subject 0 has a state 2, 1 has not
case("target-self", 0, 0, BASE, exit_(1, 0, 0, target=0))
case("target-31", 0, 0, chain(1, 32), exit_(0, 0, 0, target=31))
case("target-32", 5, 0, chain(1, 32), exit_(0, 0, 0, target=32))
case("target-last-exit", 5, 0, LARGE, exit_(15, 31, 0, target=32))
case("timeout-to-7", 0, 0, BASE, state(0, 0, timeout=7))
case("timeout-to-8", 5, 0, BASE, state(0, 0, timeout=8))
case("timeout-to-254", 5, 0, BASE, state(0, 2, timeout=254))
case("timeout-own-subject", 5, 0, BASE, state(1, 0, duration=1, timeout=2))
case("cancel-to-7", 0, 0, BASE, state(0, 1, cancel=7))
case("cancel-to-8", 5, 0, BASE, state(0, 1, cancel=8))
case("cancel-own-subject", 5, 0, BASE, state(1, 0, cancel=2))
case("initial-6", 0, 0, BASE, subject(0, initial=6))
case("initial-8", 5, 0, BASE, subject(0, initial=8))
case("initial-2-of-2", 5, 0, BASE, subject(1, initial=2))
case("initial-30-of-32", 0, 0, chain(1, 32), subject(0, initial=30))
case("initial-32-of-32", 5, 0, chain(1, 32), subject(0, initial=32))
case("receiver-2", 5, 0, BASE, state(0, 1, mask=0b100))
case("receiver-1-and-2", 5, 0, BASE, state(0, 1, mask=0b110))
case("receiver-8", 5, 0, BASE, state(0, 1, mask=0x100))
case("receiver-15-of-2", 5, 0, BASE, state(0, 1, mask=0x8000))
case("receiver-15-of-16", 0, 0, LARGE, state(3, 1, mask=0x8000))
OF_15 = (chain(15, 2), exit_(0, 0, 0, type=0))
case("receiver-14-of-15", 0, 0, *OF_15, state(0, 0, kind=SEND, mask=0x4000))
case("receiver-15-of-15", 5, 0, *OF_15, state(0, 0, kind=SEND, mask=0x8000))

# "initial state an end".

case("initial-end", 5, 0, BASE, subject(0, initial=7))
case("initial-end-second", 5, 0, BASE, subject(1, initial=1))
case("initial-end-only", 5, 0, chain(1, 1))
case("initial-end-asleep", 5, 0, BASE, first(mask=1), subject(1, initial=1))

# "start mask 0 or naming subjects from n up".

case("start-0", 5, 0, BASE, first(mask=0))
case("start-first", 0, 0, BASE, first(mask=0b01))
case("start-last", 0, 0, BASE, first(mask=0b10))
case("start-n", 5, 0, BASE, first(mask=0b100))
case("start-to-n", 5, 0, BASE, first(mask=0b111))
case("start-256", 5, 0, BASE, first(mask=0x0100))
case("start-15-of-2", 5, 0, BASE, first(mask=0x8003))
case("start-15-of-16", 0, 0, chain(16, 2), first(mask=0x8000))
case("start-14-of-15", 0, 0, chain(15, 2), first(mask=0x4000))
case("start-15-of-15", 5, 0, chain(15, 2), first(mask=0x8000))
case("start-7-of-8", 0, 0, chain(8, 2), first(mask=0x80))
case("start-8-of-8", 5, 0, chain(8, 2), first(mask=0x100))

# "more than 8 rows or 1,024 exits".

case("rows-8", 0, 0, rows(8, 0))
case("rows-9", 5, 0, rows(9, 0))
case("rows-8-and-8", 0, 0, rows(8, 8))
case("rows-8-and-9", 5, 0, rows(8, 9))
case("rows-9-and-8", 5, 0, rows(9, 8))
case("rows-32", 5, 0, rows(0, 32))
case("rows-9-across", 5, 0, TALL, add(LIMITS, a_limit(5, 0, 8, 1)))  # 2 in block 5, 7 in block 6
case("rows-9-large", 5, 0, LARGE, add(LIMITS, a_limit(15, ANY, 0, 1)))
case("exits-1024-by-8", 0, 0, Model(
    1,
    [(32, 0)] * 4,
    [a_state(s, t, INTERNAL, 8) for s in range(4) for t in range(32)],
    [an_exit(s, t, x, 31 - t) for s in range(4) for t in range(32) for x in range(8)],
))
case("exits-1025", 5, 0, large(1))
case("exits-1050", 5, 0, large(26))  # 25 full blocks, 43 in all
case("exits-1051", 5, 0, large(27), drop_all(LIMITS))

# Files full of one kind: 1,764 records in blocks 1 to 42.

CROWD = [(s, t) for s in range(7) for t in range(252)]
MANY_STATES = Model(1, [(32, 0)], [a_state(s, t, END, 0) for s, t in CROWD], [])
MANY_EXITS = Model(1, [(1, 0)], [], [an_exit(s, t, 0, 0) for s, t in CROWD])
MANY_LIMITS = Model(1, [(1, 0)], [], [], [a_limit(o, s, 0, 1) for o, s in CROWD])
case("crowd-states", 5, 0, MANY_STATES)
case("crowd-states-last", 4, 42, MANY_STATES, swap(STATES, 1762))
case("crowd-exits", 5, 0, MANY_EXITS)
case("crowd-exits-last", 4, 42, MANY_EXITS, swap(EXITS, 1762))
case("crowd-limits", 5, 0, MANY_LIMITS)
case("crowd-limits-last", 4, 42, MANY_LIMITS, limit(6, 251, 0, limit=0))

# -- "The fields of an exit whose state record is missing are judged by 5, not 4; its place in
# the order still by 4."

GONE = (BASE, drop(STATES, 0, 6))
case("gone", 5, 0, *GONE)
case("gone-rest", 5, 0, *GONE, exit_(0, 6, 0, rest=1))
case("gone-last", 5, 0, *GONE, exit_(0, 6, 0, last=1))
case("gone-sender", 5, 0, *GONE, exit_(0, 6, 0, sender=0))
case("gone-type", 5, 0, *GONE, exit_(0, 6, 0, type=32))
case("gone-target", 5, 0, *GONE, exit_(0, 6, 0, target=254))
case("gone-order-down", 4, 2, *GONE, swap(EXITS, 8))
case("gone-order-up", 4, 2, *GONE, swap(EXITS, 9))
case("gone-order-equal", 4, 2, *GONE, twice(EXITS, 9), drop(STATES, 1, 0))
case("gone-order-rest", 4, 2, *GONE, exit_(0, 6, 0, rest=1), swap(EXITS, 8))
case("gone-then-rest", 4, 2, *GONE, exit_(0, 6, 0, rest=1), exit_(1, 0, 0, rest=1))
case("gone-subject", 5, 0, BASE, add(EXITS, an_exit(2, 0, 0, 0)), exit_(2, 0, 0, rest=1))
case("gone-254", 5, 0, BASE, add(EXITS, bytearray([254] * 12)))
case("gone-state", 5, 0, BASE, add(EXITS, an_exit(1, 2, 0, 0)), exit_(1, 2, 0, type=77))
case("gone-all", 5, 0, BASE, drop_all(STATES), exit_(0, 0, 0, rest=1), exit_(1, 0, 0, type=77))
case("gone-all-order", 4, 1, BASE, drop_all(STATES), swap(EXITS, 4))
case("gone-first-state", 5, 0, BASE, drop(STATES, 0, 0), exit_(0, 0, 0, type=0), exit_(0, 0, 1, last=1))
case("gone-32", 5, 0, BASE, exit_(0, 6, 0, state=32))  # not state 0 of subject 1, though 32 places on
case("gone-16", 5, 0, BASE, add(EXITS, an_exit(16, 0, 0, 0)), exit_(16, 0, 0, rest=1))
case("gone-across", 5, 0, TALL, drop(STATES, 5, 6), exit_(5, 6, 0, sender=0))
case("gone-across-order", 4, 4, TALL, drop(STATES, 5, 1), swap(EXITS, 41))

# The state record is there, though header or state do not allow it: its exits' fields by 4.

case("there-subject-rest", 4, 2, BASE, *with_exit(2, 0, INTERNAL), exit_(2, 0, 0, rest=1))
case("there-subject-sender", 4, 2, BASE, *with_exit(2, 0, INTERNAL), exit_(2, 0, 0, sender=0))
case("there-subject-255", 5, 0, BASE, *with_exit(255, 255, INTERNAL))
case("there-subject-255-any", 4, 2, BASE, *with_exit(255, 255, RECEIVE))
case("there-subject-16", 4, 4, chain(16, 4), *with_exit(16, 0, INTERNAL), exit_(16, 0, 0, type=3))
case("there-state-type", 4, 2, BASE, *with_exit(1, 2, INTERNAL), exit_(1, 2, 0, type=0))
case("there-state-40", 4, 2, BASE, *with_exit(1, 40, SEND, mask=1))
case("there-exit-type", 4, 2, BASE, add(EXITS, an_exit(1, 0, 1, 1, sender=0, type=32)))
case("there-exit-254-rest", 4, 2, BASE, exit_(1, 0, 0, exit=254, rest=1))
case("there-end-sender", 4, 2, BASE, add(EXITS, an_exit(1, 1, 0, 0, sender=0)))
case("there-end-type", 4, 2, BASE, add(EXITS, an_exit(1, 1, 0, 0, type=0)))

# -- "Stages run in this order over the whole file".

case("stage-1-before-2", 1, 0, BASE, spoil(0, 508), cut_to(2047))
case("stage-1-before-3", 1, 0, BASE, number(0, 9), cut_to(513))
case("stage-2-before-3", 2, 3, BASE, number(0, 9), spoil(3, 508))
case("stage-2-before-3-same", 2, 1, BASE, kind(1, 9), spoil(1, 508))
case("stage-2-before-4", 2, 3, BASE, first(n=0), spoil(3, 508))
case("stage-2-before-5", 2, 2, BASE, first(mask=0), spoil(2, 508))
case("stage-3-before-4", 3, 3, BASE, first(n=0), put(3, 507, 1))
case("stage-3-before-4-same", 3, 1, BASE, state(0, 0, kind=0), number(1, 9))
case("stage-3-before-5", 3, 3, BASE, first(mask=0), count(3, 0))
case("stage-3-full-first", 3, 1, BASE, split(1, 5), number(2, 9))
case("stage-3-early-first", 3, 0, BASE, put(0, 507, 1), number(1, 9))
case("stage-4-early-first", 4, 1, BASE, state(0, 6, kind=0), exit_(0, 0, 0, rest=1))
case("stage-4-exit-first", 4, 2, BASE, exit_(1, 0, 0, rest=1), limit(0, 0, ANY, limit=0))
case("stage-4-before-5", 4, 3, BASE, first(mask=0), limit(1, 0, ANY, limit=17))
case("stage-4-after-initial", 4, 2, BASE, subject(0, initial=9), exit_(1, 0, 0, rest=1))
case("stage-4-after-target", 4, 2, BASE, exit_(0, 0, 0, target=9), exit_(1, 0, 0, rest=1))
case("stage-4-after-missing", 4, 3, BASE, drop(STATES, 0, 6), limit(1, 0, ANY, limit=0))
case("stage-4-after-receiver", 4, 1, BASE, state(0, 1, mask=0b100), state(1, 1, kind=9))
case("stage-4-after-sender", 4, 3, BASE, state(0, 3, sender=9), limit(0, 1, 31, type=99))
case("stage-4-after-owner", 4, 3, BASE, add(LIMITS, a_limit(9, 0, 0, 1), a_limit(9, 0, 1, 0)))
case("stage-4-after-rows", 4, 3, rows(9, 1), limit(1, 0, 0, limit=0))
case("stage-4-one-record", 4, 1, BASE, state(0, 3, sender=9, type=99))  # both in one record
case("stage-4-large", 4, 42, large(26), limit(15, 14, ANY, limit=0))

# -- 254 and 255 in each byte of a record; of the rest bytes the first and the last.

each_byte("first", BASE, 0, 0, (0, 1, 2, 3, 11), "44 55 55 44 44")
each_byte("header", BASE, 0, 2, (0, 1, 2, 3, 11), "44 44 55 44 44")
each_byte("internal", BASE, 1, 0, range(12), "44 44 44 44 4. 4. 00 00 54 50 44 44")
each_byte("send", BASE, 1, 1, range(12), "44 44 44 44 4. 4. 44 44 4. 50 55 55")
each_byte("receive", BASE, 1, 8, range(12), "44 44 44 44 4. 4. 44 44 4. 5. 44 44")
each_byte("close", BASE, 1, 3, range(12), "44 44 44 44 50 40 44 44 4. 4. 44 44")
each_byte("open", BASE, 1, 4, range(12), "44 44 44 44 5. 4. 44 44 4. 4. 44 44")
each_byte("ask", BASE, 1, 5, range(12), "44 44 44 44 50 40 44 44 4. 4. 44 44")
each_byte("end", BASE, 1, 9, range(12), "55 55 44 44 4. 4. 44 44 4. 4. 44 44")
each_byte("exit-internal", BASE, 2, 0, (0, 1, 2, 3, 4, 5, 6, 11), "44 44 44 55 4. 4. 44 44")
each_byte("exit-send", BASE, 2, 2, (0, 1, 2, 3, 4, 5, 6, 11), "44 44 55 55 4. 44 44 44")
each_byte("exit-receive", BASE, 2, 10, (0, 1, 2, 3, 4, 5, 6, 11), "55 55 55 55 54 44 44 44")
each_byte("limit-first", BASE, 3, 0, (0, 1, 2, 3, 4, 11), "44 44 4. 44 44 44")
each_byte("limit-last", BASE, 3, 4, (0, 1, 2, 3, 4, 11), "55 50 4. 44 44 44")

# -- Model P with one field changed: what writing the edited model must give.

case("edited-limit", 0, 0, P, limit(1, 0, ANY, limit=3))
case("edited-target", 0, 0, P, exit_(0, 0, 0, target=2))


# ---- Edits of model P

# What stays valid is written as the file of the case above: four blocks, one for each kind of record.
# Loaded again, it shows the new value. What does not is refused 8 in a buffer that is long enough and
# in one of length 0: 8 comes before 6.
EDITS = """\
edit limit-3 | 0 2048 same | loads 0 0 3
edit target-2 | 0 2048 same | loads 0 0 2
edit limit-17 | 8 0 kept | 8 0 kept
edit target-9 | 8 0 kept | 8 0 kept
edit kind-0 | 8 0 kept | 8 0 kept
edit subjects-3 | 8 0 kept | 8 0 kept
edit target-behind-last | 8 0 kept | 8 0 kept
edit first-3 | 8 0 kept | 8 0 kept
"""


# ---- The files

def written(file):
    """A file that loads, written back: refused 6 where the buffer is shorter, else the file again.

    The buffers have no byte, one less than the file, as many, and 100 more.
    """
    return " | 6 0 kept | 6 0 kept" + 2 * f" | 0 {len(file)} same"


def answer(name, refusal, block, file):
    return f"{name} {refusal} {block}" + ("" if refusal else written(file)) + "\n"


def main():
    crate = pathlib.Path(__file__).resolve().parent.parent / "crates" / "cases"
    data = crate / "data"
    data.mkdir(parents=True, exist_ok=True)
    for old in data.iterdir():
        old.unlink()
    names = [name for name, _, _, _ in CASES]
    files = [file for _, _, _, file in CASES]
    assert len(set(names)) == len(names), "a name twice"
    assert len(set(files)) == len(files), "a file twice"
    for name, file in zip(names, files):
        if file is not None:
            (data / name).write_bytes(file)
    (data / "list").write_text("".join(f"{name}\n" for name in names))
    (crate / "stdout").write_text("".join(answer(*each) for each in CASES) + EDITS)


if __name__ == "__main__":
    main()
