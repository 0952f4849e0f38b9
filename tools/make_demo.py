#!/usr/bin/env python3
"""Makes the orchard of ./demo: a model file, a tape, and a sentence for each line that the controller prints.

    python3 tools/make_demo.py

in the repository's root writes orchard/model.bin, orchard/tape.bin and orchard/says.
"""

import pathlib
import sys

sys.dont_write_bytecode = True
from make_cases import ANY, file_of
from make_steps import bytes_of, end, internal, model, receive, send

A, B, C, SCHEDULER, VALVE, AGRONOMIST = range(6)
READING, ORDER, REPORT, ENOUGH = range(4)


def to(subject):
    return 1 << subject


probe = [internal(1), send(to(SCHEDULER), READING, 0, duration=3, timeout=0, cancel=0)]

scheduler = [
    receive((A, READING, 1), (B, READING, 1), (C, READING, 1), (AGRONOMIST, ENOUGH, 3)),
    internal(2, 0),
    send(to(VALVE), ORDER, 0, duration=10, timeout=0),
    end(),
]

valve = [receive((SCHEDULER, ORDER, 1)), internal(2), send(to(AGRONOMIST), REPORT, 0)]

agronomist = [receive((VALVE, REPORT, 1)), internal(2, 0), send(to(SCHEDULER), ENOUGH, 3), end()]

limits = [
    (SCHEDULER, A, ANY, 2), (SCHEDULER, B, ANY, 2), (SCHEDULER, C, ANY, 2), (SCHEDULER, AGRONOMIST, ANY, 1),
    (VALVE, SCHEDULER, ANY, 1), (AGRONOMIST, VALVE, ANY, 1),
]

# All start but the agronomist, who sleeps until a report comes.
orchard = model(0b011111, [probe, probe, probe, scheduler, valve, agronomist], limits)

day = [
    ("Do 0 0 35", "probe A has measured 35 kPa and wants to send it"),
    ("Reserve 0", "it gets a place in the scheduler's pool"),
    ("Take 3 0", "refused: the scheduler finds a place but no reading; a bare place is not 0 kPa"),
    ("Do 1 0 80", "probe B has measured 80 kPa"),
    ("Reserve 1", "it gets the place behind A's"),
    ("Deliver 1", "B's reading takes its place"),
    ("Take 3 1", "the scheduler takes B's 80 kPa; A's place is still waiting"),
    ("Do 3 1 80", "wet enough there: the scheduler listens again"),
    ("Deliver 0", "A's reading takes its place, in front of the line"),
    ("Take 3 0", "the scheduler takes A's 35 kPa"),
    ("Do 3 0 35", "too dry: it wants to send an order"),
    ("Reserve 3", "a place in the valve's pool"),
    ("Deliver 3", "the order is there, the scheduler listens again"),
    ("Take 4 0", "the valve takes the order"),
    ("Do 4 0 12", "water has run for 12 minutes"),
    ("Reserve 4", "a place in the pool of the agronomist, who sleeps"),
    ("Deliver 4", "the report wakes the agronomist"),
    ("Take 5 0", "the agronomist reads: 12 minutes"),
    ("Do 2 0 90", "probe C begins to chatter: 90"),
    ("Reserve 2", "a place"),
    ("Deliver 2", "its first reading is in the scheduler's pool"),
    ("Do 2 0 91", "again: 91"),
    ("Reserve 2", "a second place, which is its limit"),
    ("Deliver 2", "its second reading"),
    ("Do 2 0 92", "and again: 92"),
    ("Reserve 2", "no place: C holds two entries already; nobody else is kept waiting"),
    ("Deliver 2", "refused: a place is missing"),
    ("Do 0 0 36", "probe A has measured 36 kPa"),
    ("Reserve 0", "A gets its place as if C were silent"),
    ("Deliver 0", "and its reading is there"),
    ("Tick", "time passes (the line shows subject 0)"),
    ("Tick", "and passes"),
    ("Expire 2", "refused: C has waited 2 of 3 ticks"),
    ("Tick", "a third tick"),
    ("Expire 2", "C gives up its third reading and measures again"),
    ("Do 5 0 0", "the agronomist decides: enough for today"),
    ("Reserve 5", "a place in the scheduler's pool: its own share, however much C chatters"),
    ("Deliver 5", "the word is there; the agronomist has ended, with an empty pool"),
    ("Take 3 3", "the scheduler ends; three readings are left in its pool, so it has ended improperly"),
    ("Do 1 0 70", "probe B has measured 70 kPa"),
    ("Reserve 1", "no place: the scheduler has ended improperly"),
    ("Deliver 1", "refused: a place is missing"),
]

folder = pathlib.Path(__file__).resolve().parent.parent / "orchard"
folder.mkdir(exist_ok=True)
(folder / "model.bin").write_bytes(file_of(orchard, ()))
(folder / "tape.bin").write_bytes(b"".join(bytes_of(command) for command, _ in day))
(folder / "says").write_text(
    "count, code, subject, refusal; then of that subject its state, word and pool entries\n"
    + "".join(f"{command}: {words}\n" for command, words in day)
)
