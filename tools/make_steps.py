#!/usr/bin/env python3
"""Makes the cases of the engine: model files, tapes of commands, and the answers they must get.

    python3 tools/make_steps.py

in the repository's root writes crates/step_cases/data/ (the model files, the tapes, and `list`
with the names of a model file and a tape by turns) and crates/step_cases/stdout.

The tapes are written by the rules alone, which docs/RULES.md has. What each command must give stands
beside it and is written by hand: nothing here computes it. Quoted words name the rule that a case is
about; docs/RULES.md may say it in other words.
tools/make_cases.py builds the model files; importing it writes nothing.

A row of a tape:

    COMMAND | REFUSAL | STATE WORD ENTRIES | MODE WAITED MASK | POOL | PLACED IMPROPER CLOSED FULL MISSING

After the command stands what it must give: the refusal, and of its subject (for Tick of subject 0)
what the configuration then holds. `-` in the fourth column: there is no such subject. In a pool
`0.1` is a reservation from sender 0 of type 1, `0.1=35` a message with content 35; `-` or nothing
is no entry. Only Reserve has the last column; where it is missing all five are 0.
A last column `again R S W E` has the refusal, state, word and entries that the command gets where
the whole tape is run once more as plain coded commands, if they are not those of the row. Before it
stands `valid V` where the command is given with `improper`, and only there: 1 if that configuration is
valid, else 0.

A command may have a word before it. Each puts a number into the byte that the engine ignores:

    value       1: given as a command value and not as bytes
    model       2: with a model that is not valid; the run goes on from the configuration before
    config      3: with a configuration that is not valid (mode 4 for subject 0); likewise
    after N     4: after a tape of N such commands, run in one call; the exit byte is N
    improper    5: as a command value, with a configuration in which the subject of its line has mode 3 and
                the rest is as before; the run goes on from the configuration before. A line `valid V` follows
    byte N      N: plain

The last line of a tape is that of the whole tape run once more in one call: the refusal, and what the
buffer then holds, four numbers for each command. The buffer has 7 at each place before, and just enough
places. `whole` names what is wrong in that call: `model` and `config` as above, `short` a buffer with one
place less. It puts 16 and 1, 2, 4 for each into the ignored byte of the first command.
"""

import pathlib
import sys

sys.dont_write_bytecode = True  # no tools/__pycache__

from make_cases import (ANY, ASK, CLOSE, END, INTERNAL, OPEN, RECEIVE, SEND, Model, P, a_limit,
                        a_state, an_exit, file_of)

# ---- Models in fewer words: a subject is a list of states, a state its kind, fields and exits


def internal(*targets, **more):
    return INTERNAL, more, [(target,) for target in targets]


def send(mask, type, target, **more):
    return SEND, {"mask": mask, **more}, [(target, ANY, type)]


def receive(*exits, **more):
    """Each exit is (sender, type, target)."""
    return RECEIVE, more, [(target, sender, type) for sender, type, target in exits]


def close(target, **more):
    return CLOSE, more, [(target,)]


def open_(target, **more):
    return OPEN, more, [(target,)]


def ask(empty, other, **more):
    return ASK, more, [(empty,), (other,)]


def end():
    return END, {}, []


def model(mask, subjects, limits=(), initial={}):
    """`mask`: who starts. `limits`: rows (owner, sender, type, limit). `initial`: where it is not 0."""
    states, exits = [], []
    for s, own in enumerate(subjects):
        for t, (kind, fields, ways) in enumerate(own):
            states.append(a_state(s, t, kind, len(ways), **fields))
            exits += [an_exit(s, t, x, *way) for x, way in enumerate(ways)]
    counts = [(len(own), initial.get(s, 0)) for s, own in enumerate(subjects)]
    return Model(mask, counts, states, exits, [a_limit(*row) for row in limits])


# ---- The commands and the rows

CODES = {"Do": 1, "Reserve": 2, "Deliver": 3, "Take": 4, "Run": 5, "Expire": 6, "Cancel": 7, "Tick": 8}
HOW = {"value": 1, "model": 2, "config": 3, "improper": 5}
WHOLE = {"model": 1, "config": 2, "short": 4}
TICK = 8


def bytes_of(text):
    """The eight bytes of a command, as `Take 1 0`. `Raw CODE SUBJECT EXIT WORD` names them all."""
    words, how, exit_ = text.split(), 0, None
    if words[0] in HOW:
        how = HOW[words.pop(0)]
    elif words[0] == "after":
        how, exit_ = 4, int(words[1])
        words = words[2:]
    elif words[0] == "byte":
        how = int(words[1])
        words = words[2:]
    name, values = words[0], [int(v) for v in words[1:]]
    if name != "Raw":
        fields = {"Do": 3, "Take": 2, "Tick": 0}.get(name, 1)
        assert len(values) == fields, text
        values.insert(0, CODES[name])
    code, subject, exit_, word = (values + [0, 0, 0])[:4] if exit_ is None else (values[0], 0, exit_, 0)
    return bytes([code, subject, exit_, how]) + word.to_bytes(4, "little")


def as_whole(command, wrong):
    """The first command of a tape that is given so in one call."""
    assert command[3] == 0, "given otherwise already"
    return command[:3] + bytes([16 + sum(WHOLE[word] for word in wrong)]) + command[4:]


def entry_of(text):
    place, _, content = text.partition("=")
    sender, type_ = place.split(".")
    return f"{sender} {type_} 1 {content}" if content else f"{sender} {type_} 0 0"


class Row:
    """A row's command, its lines of the output, and its four numbers of the last line."""

    def __init__(self, count, text):
        columns = [column.strip() for column in text.split("|")]
        self.again, valid = None, []
        if columns[-1].startswith("again "):
            self.again = columns.pop()[6:]
        if columns[-1].startswith("valid "):
            valid = [columns.pop()]
        command, refusal, shown, waiting, pool, answer = columns + ["-", "0 0 0 0 0"][len(columns) - 4 :]
        self.command = bytes_of(command)
        code, subject = self.command[0], 0 if self.command[0] == TICK else self.command[1]
        self.again = self.again or f"{refusal} {shown}"
        line = f"{count} {code} {subject} {refusal} {shown} {answer}"
        if waiting != "-":
            line += " " + " ".join([waiting] + [entry_of(e) for e in pool.split() if e != "-"])
        self.lines = [line] + valid
        sizes = [len(column.split()) for column in (refusal, shown, answer, self.again)]
        assert sizes == [1, 3, 5, 4], text
        assert waiting == "-" or len(waiting.split()) == 3, text
        assert valid in ([], ["valid 0"], ["valid 1"]), text
        assert (valid != []) == (self.command[3] == HOW["improper"]), text


MODELS, TAPES = {}, {}


def named(name, model):
    MODELS[name] = model
    return name


def tape(name, model, text, whole="", refusal=0):
    """`whole`: what is wrong where the whole tape is given in one call, and the `refusal` that it then gets."""
    assert name not in TAPES and name not in MODELS, name
    lines = [line for line in text.strip().splitlines() if not line.strip().startswith("#")]
    rows = [Row(i + 1, line) for i, line in enumerate(lines)]
    last = [f"tape {refusal}"] + ["7 7 7 7" if whole else row.again for row in rows]
    if whole:
        rows[0].command = as_whole(rows[0].command, whole.split())
    TAPES[name] = model, rows, " ".join(last)


# ---- Model P

PRINT = named("model-p", P)

# "Input: Do(0,0,35), Reserve 0, Take(1,0), Deliver 0, Take(1,0), Tick, Do(0,0,9)" and the seven
# lines of "The printing program". "Handing over a reservation as content 0" would let line 3 pass.

tape("printing", PRINT, """
    Do 0 0 35   |  0 | 1 35 0 | 1 0 0
    Reserve 0   |  0 | 1 35 0 | 1 0 2 | -   | 2 0 0 0 0
    Take 1 0    | 15 | 0 0 1  | 1 0 0 | 0.0
    Deliver 0   |  0 | 2 35 0 | 2 0 0
    Take 1 0    |  0 | 1 35 0 | 2 0 0
    Tick        |  0 | 2 35 0 | 2 0 0
    Do 0 0 9    | 12 | 2 35 0 | 2 0 0
""")

# The same, each as a command value: "a command is one of eight kinds, each with its own values".

tape("printing-values", PRINT, """
    value Do 0 0 35   |  0 | 1 35 0 | 1 0 0
    value Reserve 0   |  0 | 1 35 0 | 1 0 2 | -   | 2 0 0 0 0
    value Take 1 0    | 15 | 0 0 1  | 1 0 0 | 0.0
    value Deliver 0   |  0 | 2 35 0 | 2 0 0
    value Take 1 0    |  0 | 1 35 0 | 2 0 0
    value Tick        |  0 | 2 35 0 | 2 0 0
    value Do 0 0 9    | 12 | 2 35 0 | 2 0 0
""")

# "On P after the first two commands: Cancel 0 empties pool 1; Take then answers 15."

tape("p-cancel", PRINT, """
    Do 0 0 35   |  0 | 1 35 0 | 1 0 0
    Reserve 0   |  0 | 1 35 0 | 1 0 2 | - | 2 0 0 0 0
    Cancel 0    |  0 | 0 35 0 | 1 0 0
    Take 1 0    | 15 | 0 0 0  | 1 0 0
""")

# "After the same two, Reserve again: masks 0, missing 0."

tape("p-reserve-again", PRINT, """
    Do 0 0 35   |  0 | 1 35 0 | 1 0 0
    Reserve 0   |  0 | 1 35 0 | 1 0 2 | -   | 2 0 0 0 0
    Reserve 0   |  0 | 1 35 0 | 1 0 2 | -   | 0 0 0 0 0
    Run 1       | 13 | 0 0 1  | 1 0 0 | 0.0
""")

# "Expire 1 after 2 ticks: 19; after 3: accepted, state 1."

tape("p-expire", PRINT, """
    Tick        |  0 | 0 0 0 | 1 1 0
    Tick        |  0 | 0 0 0 | 1 2 0
    Expire 1    | 19 | 0 0 0 | 1 2 0
    Tick        |  0 | 0 0 0 | 1 3 0
    Expire 1    |  0 | 1 0 0 | 2 0 0
    Tick        |  0 | 0 0 0 | 1 4 0
    Expire 1    | 12 | 1 0 0 | 2 0 0
""")

# "Expire 1 after 3 ticks with a reservation waiting: mode 2; then Deliver 0 is accepted." It starts 1 at its
# initial state, with word 0 and waited 0, and the message stands where the reservation stood.

tape("p-end-waiting", PRINT, """
    Do 0 0 35   |  0 | 1 35 0 | 1 0 0
    Reserve 0   |  0 | 1 35 0 | 1 0 2 | -   | 2 0 0 0 0
    Tick        |  0 | 1 35 0 | 1 1 2
    Tick        |  0 | 1 35 0 | 1 2 2
    Expire 1    | 19 | 0 0 1  | 1 2 0 | 0.0
    Tick        |  0 | 1 35 0 | 1 3 2
    Expire 1    |  0 | 1 0 1  | 2 0 0 | 0.0
    Take 1 0    | 12 | 1 0 1  | 2 0 0 | 0.0
    Reserve 0   |  0 | 1 35 0 | 1 3 2 | -   | 0 0 0 0 0
    Deliver 0   |  0 | 2 35 0 | 2 0 0
    Expire 1    | 19 | 0 0 1  | 1 0 0 | 0.0=35
    Take 1 0    |  0 | 1 35 0 | 2 0 0
""")

# Cancel withdraws the reservation from that pool too and starts nobody. 1 has ended properly: it gives a
# place again, and the next Deliver starts it.

tape("p-end-waiting-cancel", PRINT, """
    Do 0 0 35   |  0 | 1 35 0 | 1 0 0
    Reserve 0   |  0 | 1 35 0 | 1 0 2 | -   | 2 0 0 0 0
    Tick        |  0 | 1 35 0 | 1 1 2
    Tick        |  0 | 1 35 0 | 1 2 2
    Tick        |  0 | 1 35 0 | 1 3 2
    Expire 1    |  0 | 1 0 1  | 2 0 0 | 0.0
    Cancel 0    |  0 | 0 35 0 | 1 0 0
    Take 1 0    | 12 | 1 0 0  | 2 0 0
    Do 0 0 36   |  0 | 1 36 0 | 1 0 0
    Deliver 0   | 16 | 1 36 0 | 1 0 0
    Reserve 0   |  0 | 1 36 0 | 1 0 2 | -   | 2 0 0 0 0
    Take 1 0    | 12 | 1 0 1  | 2 0 0 | 0.0
    Deliver 0   |  0 | 2 36 0 | 2 0 0
    Take 1 0    |  0 | 1 36 0 | 2 0 0
""")

# The same with the message in the pool: mode 3. No command of 1 takes it out again: 12.

tape("p-improper", PRINT, """
    Do 0 0 35   |  0 | 1 35 0 | 1 0 0
    Reserve 0   |  0 | 1 35 0 | 1 0 2 | -      | 2 0 0 0 0
    Deliver 0   |  0 | 2 35 0 | 2 0 0
    Tick        |  0 | 2 35 0 | 2 0 0
    Tick        |  0 | 2 35 0 | 2 0 0
    Expire 1    | 19 | 0 0 1  | 1 2 0 | 0.0=35
    Tick        |  0 | 2 35 0 | 2 0 0
    Expire 1    |  0 | 1 0 1  | 3 0 0 | 0.0=35
    Take 1 0    | 12 | 1 0 1  | 3 0 0 | 0.0=35
    Run 1       | 12 | 1 0 1  | 3 0 0 | 0.0=35
    Expire 1    | 12 | 1 0 1  | 3 0 0 | 0.0=35
    Cancel 1    | 12 | 1 0 1  | 3 0 0 | 0.0=35
    Tick        |  0 | 2 35 0 | 2 0 0
    Take 1 0    | 12 | 1 0 1  | 3 0 0 | 0.0=35
""")

# "Deliver 0 after the first command alone: 16."

tape("p-deliver-early", PRINT, """
    Do 0 0 35   |  0 | 1 35 0 | 1 0 0
    Deliver 0   | 16 | 1 35 0 | 1 0 0
    Run 1       | 13 | 0 0 0  | 1 0 0
""")

# "Subject 2: 11." 11: "subject is n or more". Every command that names a subject.

tape("p-subject-2", PRINT, """
    Do 2 0 35   | 11 | 0 0 0 | -
    Reserve 2   | 11 | 0 0 0 | -
    Deliver 2   | 11 | 0 0 0 | -
    Take 2 0    | 11 | 0 0 0 | -
    Run 2       | 11 | 0 0 0 | -
    Expire 2    | 11 | 0 0 0 | -
    Cancel 2    | 11 | 0 0 0 | -
    Do 1 0 35   | 13 | 0 0 0 | 1 0 0
""")

# The same as values.

tape("p-subject-2-values", PRINT, """
    value Do 2 0 35   | 11 | 0 0 0 | -
    value Reserve 2   | 11 | 0 0 0 | -
    value Deliver 2   | 11 | 0 0 0 | -
    value Take 2 0    | 11 | 0 0 0 | -
    value Run 2       | 11 | 0 0 0 | -
    value Expire 2    | 11 | 0 0 0 | -
    value Cancel 2    | 11 | 0 0 0 | -
    value Run 1       | 13 | 0 0 0 | 1 0 0
""")

# 11 once more: 15 could be a subject, 16 and 255 never ("1 to 16 subjects").

tape("p-subject-15-16-255", PRINT, """
    Do 15 0 35       | 11 | 0 0 0 | -
    Take 16 0        | 11 | 0 0 0 | -
    Cancel 255       | 11 | 0 0 0 | -
    value Run 15     | 11 | 0 0 0 | -
    value Deliver 16 | 11 | 0 0 0 | -
    value Do 255 0 1 | 11 | 0 0 0 | -
""")

# 18 before 20: state 1 has no timeout, though "Deliver would be accepted".

tape("p-expire-18-before-20", PRINT, """
    Do 0 0 35   |  0 | 1 35 0 | 1 0 0
    Reserve 0   |  0 | 1 35 0 | 1 0 2 | - | 2 0 0 0 0
    Expire 0    | 18 | 1 35 0 | 1 0 2
    Deliver 0   |  0 | 2 35 0 | 2 0 0
""")

# Row "owner 1, sender 0, any type, 1": "reservations included".

tape("p-cancel-and-again", PRINT, """
    Do 0 0 35   |  0 | 1 35 0 | 1 0 0
    Reserve 0   |  0 | 1 35 0 | 1 0 2 | -      | 2 0 0 0 0
    Cancel 0    |  0 | 0 35 0 | 1 0 0
    Do 0 0 36   |  0 | 1 36 0 | 1 0 0
    Reserve 0   |  0 | 1 36 0 | 1 0 2 | -      | 2 0 0 0 0
    Deliver 0   |  0 | 2 36 0 | 2 0 0
    Run 1       | 13 | 0 0 1  | 1 0 0 | 0.0=36
    Cancel 1    | 18 | 0 0 1  | 1 0 0 | 0.0=36
    Take 1 1    | 14 | 0 0 1  | 1 0 0 | 0.0=36
    Take 1 0    |  0 | 1 36 0 | 2 0 0
""")

# ---- Every kind of state, every command

# Subject 0 comes from its internal state 0 to any kind: exit 0 to 1, send; 1 to 2, receive; 2 to 3,
# close; 3 to 4, open; 4 to 5, ask-empty; 5 to 6, end; 6 to 0 itself; 7 to 7, internal with both targets.
KINDS = named("model-kinds", model(0b011, [
    [
        internal(1, 2, 3, 4, 5, 6, 0, 7),
        send(0b010, 0, 0),
        receive((1, 0, 0), (1, 1, 6)),
        close(0),
        open_(0),
        ask(0, 7),
        end(),
        internal(0, duration=2, timeout=2, cancel=6),
    ],
    [receive((0, 0, 0), (0, 1, 1)), end()],
    [internal(1), end()],
]))

# 13: "state of the wrong kind (commands 1 to 5)". 18: "no timeout or cancel target".

tape("kinds-internal", KINDS, """
    Reserve 0   | 13 | 0 0 0 | 1 0 0
    Deliver 0   | 13 | 0 0 0 | 1 0 0
    Take 0 0    | 13 | 0 0 0 | 1 0 0
    Run 0       | 13 | 0 0 0 | 1 0 0
    Expire 0    | 18 | 0 0 0 | 1 0 0
    Cancel 0    | 18 | 0 0 0 | 1 0 0
    Do 0 6 5    |  0 | 0 5 0 | 1 0 0
""")

tape("kinds-send", KINDS, """
    Do 0 0 5    |  0 | 1 5 0 | 1 0 0
    Do 0 0 6    | 13 | 1 5 0 | 1 0 0
    Take 0 0    | 13 | 1 5 0 | 1 0 0
    Run 0       | 13 | 1 5 0 | 1 0 0
    Expire 0    | 18 | 1 5 0 | 1 0 0
    Cancel 0    | 18 | 1 5 0 | 1 0 0
    Deliver 0   | 16 | 1 5 0 | 1 0 0
    Reserve 0   |  0 | 1 5 0 | 1 0 2 | - | 2 0 0 0 0
    Do 0 0 6    | 13 | 1 5 0 | 1 0 2
    Cancel 0    | 18 | 1 5 0 | 1 0 2
    Deliver 0   |  0 | 0 5 0 | 1 0 0
    Take 1 0    |  0 | 0 5 0 | 1 0 0
""")

tape("kinds-receive", KINDS, """
    Do 0 1 5    |  0 | 2 5 0 | 1 0 0
    Do 0 0 6    | 13 | 2 5 0 | 1 0 0
    Reserve 0   | 13 | 2 5 0 | 1 0 0
    Deliver 0   | 13 | 2 5 0 | 1 0 0
    Run 0       | 13 | 2 5 0 | 1 0 0
    Expire 0    | 18 | 2 5 0 | 1 0 0
    Cancel 0    | 18 | 2 5 0 | 1 0 0
    Take 0 0    | 15 | 2 5 0 | 1 0 0
    Take 0 1    | 15 | 2 5 0 | 1 0 0
""")

tape("kinds-close", KINDS, """
    Do 0 2 5    |  0 | 3 5 0 | 1 0 0
    Do 0 0 6    | 13 | 3 5 0 | 1 0 0
    Reserve 0   | 13 | 3 5 0 | 1 0 0
    Deliver 0   | 13 | 3 5 0 | 1 0 0
    Take 0 0    | 13 | 3 5 0 | 1 0 0
    Expire 0    | 18 | 3 5 0 | 1 0 0
    Cancel 0    | 18 | 3 5 0 | 1 0 0
    Run 0       |  0 | 0 5 0 | 1 0 0
""")

tape("kinds-open", KINDS, """
    Do 0 3 5    |  0 | 4 5 0 | 1 0 0
    Do 0 0 6    | 13 | 4 5 0 | 1 0 0
    Reserve 0   | 13 | 4 5 0 | 1 0 0
    Deliver 0   | 13 | 4 5 0 | 1 0 0
    Take 0 0    | 13 | 4 5 0 | 1 0 0
    Expire 0    | 18 | 4 5 0 | 1 0 0
    Cancel 0    | 18 | 4 5 0 | 1 0 0
    Run 0       |  0 | 0 5 0 | 1 0 0
""")

tape("kinds-ask", KINDS, """
    Do 0 4 5    |  0 | 5 5 0 | 1 0 0
    Do 0 0 6    | 13 | 5 5 0 | 1 0 0
    Reserve 0   | 13 | 5 5 0 | 1 0 0
    Deliver 0   | 13 | 5 5 0 | 1 0 0
    Take 0 0    | 13 | 5 5 0 | 1 0 0
    Expire 0    | 18 | 5 5 0 | 1 0 0
    Cancel 0    | 18 | 5 5 0 | 1 0 0
    Run 0       |  0 | 0 5 0 | 1 0 0
""")

# 12: "subject not running". It comes before 13, 14, 15, 16 and 18: at an end the state is of the
# wrong kind for each command, has no exits and no targets.

tape("kinds-end", KINDS, """
    Do 0 5 5    |  0 | 6 5 0 | 2 0 0
    Do 0 0 6    | 12 | 6 5 0 | 2 0 0
    Do 0 255 6  | 12 | 6 5 0 | 2 0 0
    Reserve 0   | 12 | 6 5 0 | 2 0 0
    Deliver 0   | 12 | 6 5 0 | 2 0 0
    Take 0 0    | 12 | 6 5 0 | 2 0 0
    Run 0       | 12 | 6 5 0 | 2 0 0
    Expire 0    | 12 | 6 5 0 | 2 0 0
    Cancel 0    | 12 | 6 5 0 | 2 0 0
    Tick        |  0 | 6 5 0 | 2 0 0
""")

# "asleep has the initial state and word 0; who isn't running has waited 0". Do is of the right kind
# there and exit 0 is there: 12 all the same; exit 200 is not there: 12 before 14.

tape("asleep", KINDS, """
    Tick        |  0 | 0 0 0 | 1 1 0
    Do 2 0 6    | 12 | 0 0 0 | 0 0 0
    Do 2 200 6  | 12 | 0 0 0 | 0 0 0
    Reserve 2   | 12 | 0 0 0 | 0 0 0
    Deliver 2   | 12 | 0 0 0 | 0 0 0
    Take 2 200  | 12 | 0 0 0 | 0 0 0
    Run 2       | 12 | 0 0 0 | 0 0 0
    Expire 2    | 12 | 0 0 0 | 0 0 0
    Cancel 2    | 12 | 0 0 0 | 0 0 0
""")

# The same as values.

tape("asleep-values", KINDS, """
    value Do 2 0 6    | 12 | 0 0 0 | 0 0 0
    value Reserve 2   | 12 | 0 0 0 | 0 0 0
    value Deliver 2   | 12 | 0 0 0 | 0 0 0
    value Take 2 200  | 12 | 0 0 0 | 0 0 0
    value Run 2       | 12 | 0 0 0 | 0 0 0
    value Expire 2    | 12 | 0 0 0 | 0 0 0
    value Cancel 2    | 12 | 0 0 0 | 0 0 0
""")

# 14: "exit not there": the number of exits, and 255. State 0 has eight, state 7 one, state 2 two.
# 14 before 15: no message is there either. 13 before 14: the kind is wrong and the exit not there.

tape("exits", KINDS, """
    Do 0 8 5          | 14 | 0 0 0 | 1 0 0
    Do 0 255 5        | 14 | 0 0 0 | 1 0 0
    value Do 0 8 5    | 14 | 0 0 0 | 1 0 0
    value Do 0 255 5  | 14 | 0 0 0 | 1 0 0
    Take 0 8          | 13 | 0 0 0 | 1 0 0
    Do 0 7 5          |  0 | 7 5 0 | 1 0 0
    Do 0 1 6          | 14 | 7 5 0 | 1 0 0
    Do 0 7 6          | 14 | 7 5 0 | 1 0 0
    Do 0 0 6          |  0 | 0 6 0 | 1 0 0
    Do 0 1 7          |  0 | 2 7 0 | 1 0 0
    Take 0 2          | 14 | 2 7 0 | 1 0 0
    Take 0 255        | 14 | 2 7 0 | 1 0 0
    value Take 0 2    | 14 | 2 7 0 | 1 0 0
    value Take 0 255  | 14 | 2 7 0 | 1 0 0
    Take 0 1          | 15 | 2 7 0 | 1 0 0
    Do 0 8 6          | 13 | 2 7 0 | 1 0 0
    Do 0 255 6        | 13 | 2 7 0 | 1 0 0
""")

# "words are any 32-bit unsigned number"; "word (low byte first)".

tape("words", KINDS, """
    Do 0 6 4294967295        |  0 | 0 4294967295 0 | 1 0 0
    Do 0 6 16909060          |  0 | 0 16909060 0   | 1 0 0
    Do 0 6 2147483648        |  0 | 0 2147483648 0 | 1 0 0
    value Do 0 6 4294967295  |  0 | 0 4294967295 0 | 1 0 0
    Do 0 6 0                 |  0 | 0 0 0          | 1 0 0
    Do 0 0 4294967295        |  0 | 1 4294967295 0 | 1 0 0
    Reserve 0                |  0 | 1 4294967295 0 | 1 0 2 | - | 2 0 0 0 0
    Deliver 0                |  0 | 0 4294967295 0 | 1 0 0
    Take 1 0                 |  0 | 0 4294967295 0 | 1 0 0
""")

# 0 for each of the eight, given as values. Only Do and Take change the word.

tape("values", KINDS, """
    value Do 0 2 5    |  0 | 3 5 0 | 1 0 0
    value Run 0       |  0 | 0 5 0 | 1 0 0
    value Do 0 0 6    |  0 | 1 6 0 | 1 0 0
    value Reserve 0   |  0 | 1 6 0 | 1 0 2 | - | 2 0 0 0 0
    value Deliver 0   |  0 | 0 6 0 | 1 0 0
    value Take 1 0    |  0 | 0 6 0 | 1 0 0
    value Do 0 7 7    |  0 | 7 7 0 | 1 0 0
    value Tick        |  0 | 7 7 0 | 1 1 0
    value Expire 0    | 19 | 7 7 0 | 1 1 0
    value Tick        |  0 | 7 7 0 | 1 2 0
    value Expire 0    |  0 | 2 7 0 | 1 0 0
    value Expire 0    | 18 | 2 7 0 | 1 0 0
    value Cancel 0    | 18 | 2 7 0 | 1 0 0
""")

# Cancel: "the timeout or cancel target is entered".

tape("values-cancel", KINDS, """
    value Do 0 7 7    |  0 | 7 7 0 | 1 0 0
    value Cancel 0    |  0 | 6 7 0 | 2 0 0
    value Cancel 0    | 12 | 6 7 0 | 2 0 0
""")

# 13, 16 and 18 as values.

tape("values-kinds", KINDS, """
    value Reserve 0   | 13 | 0 0 0 | 1 0 0
    value Deliver 0   | 13 | 0 0 0 | 1 0 0
    value Take 0 0    | 13 | 0 0 0 | 1 0 0
    value Run 0       | 13 | 0 0 0 | 1 0 0
    value Expire 0    | 18 | 0 0 0 | 1 0 0
    value Cancel 0    | 18 | 0 0 0 | 1 0 0
    value Do 1 0 5    | 13 | 0 0 0 | 1 0 0
    value Do 0 0 5    |  0 | 1 5 0 | 1 0 0
    value Deliver 0   | 16 | 1 5 0 | 1 0 0
""")

# 9: "command code not 1 to 8 (coded commands)": before 11 and all that follow. The line has "that
# subject's state, word and pool entries, or three 0 if there is no such subject".

tape("codes", KINDS, """
    Raw 0 0 0 5      |  9 | 0 0 0 | 1 0 0
    Raw 9 0 0 5      |  9 | 0 0 0 | 1 0 0
    Raw 255 0 0 5    |  9 | 0 0 0 | 1 0 0
    Raw 0 3 0 5      |  9 | 0 0 0 | -
    Raw 9 255 0 5    |  9 | 0 0 0 | -
    Raw 128 2 0 5    |  9 | 0 0 0 | 0 0 0
    Do 0 0 7         |  0 | 1 7 0 | 1 0 0
    Raw 9 0 0 5      |  9 | 1 7 0 | 1 0 0
    Reserve 0        |  0 | 1 7 0 | 1 0 2 | -   | 2 0 0 0 0
    Raw 10 1 0 5     |  9 | 0 0 1 | 1 0 0 | 0.0
    Raw 0 0 0 0      |  9 | 1 7 0 | 1 0 2
    Raw 0 1 0 0      |  9 | 0 0 1 | 1 0 0 | 0.0
""")

# "Fields a command lacks are ignored; for Tick the line shows subject 0."

tape("fields-ignored", KINDS, """
    Raw 8 0 200 4294967295   |  0 | 0 0 0 | 1 1 0
    Raw 8 1 0 0              |  0 | 0 0 0 | 1 2 0
    Raw 8 255 255 1          |  0 | 0 0 0 | 1 3 0
    Do 0 0 5                 |  0 | 1 5 0 | 1 0 0
    Raw 2 0 255 77           |  0 | 1 5 0 | 1 0 2 | - | 2 0 0 0 0
    Raw 3 0 255 77           |  0 | 0 5 0 | 1 0 0
    Raw 4 1 0 77             |  0 | 0 5 0 | 1 0 0
    Do 0 2 6                 |  0 | 3 6 0 | 1 0 0
    Raw 5 0 255 77           |  0 | 0 6 0 | 1 0 0
    Do 0 7 7                 |  0 | 7 7 0 | 1 0 0
    Tick                     |  0 | 7 7 0 | 1 1 0
    Tick                     |  0 | 7 7 0 | 1 2 0
    Raw 6 0 255 77           |  0 | 2 7 0 | 1 0 0
""")

# "code, subject, exit, an ignored byte, word".

tape("byte-ignored", KINDS, """
    byte 255 Do 0 0 5        |  0 | 1 5 0 | 1 0 0
    byte 128 Reserve 0       |  0 | 1 5 0 | 1 0 2 | - | 2 0 0 0 0
    byte 6 Deliver 0         |  0 | 0 5 0 | 1 0 0
    byte 254 Take 1 0        |  0 | 0 5 0 | 1 0 0
    byte 255 Tick            |  0 | 0 5 0 | 1 1 0
    byte 9 Do 0 7 6          |  0 | 7 6 0 | 1 0 0
    byte 77 Expire 0         | 19 | 7 6 0 | 1 0 0
    byte 255 Raw 7 0 255 77  |  0 | 6 6 0 | 2 0 0
    byte 255 Run 0           | 12 | 6 6 0 | 2 0 0
    byte 255 Raw 9 0 0 0     |  9 | 6 6 0 | 2 0 0
""")

# 8: "model not valid", for each command. 8 before 9 (code 0, 9, 255), before 11 (subject 3, 255).
# The model used has no subjects, so no line has a subject's values.

tape("model-not-valid", KINDS, """
    model Do 0 0 5       |  8 | 0 0 0 | - | again 0 1 5 0
    model Reserve 0      |  8 | 0 0 0 | - | again 0 1 5 0
    model Deliver 0      |  8 | 0 0 0 | - | again 0 0 5 0
    model Take 1 0       |  8 | 0 0 0 | - | again 0 0 5 0
    model Run 0          |  8 | 0 0 0 | - | again 13 0 5 0
    model Expire 0       |  8 | 0 0 0 | - | again 18 0 5 0
    model Cancel 0       |  8 | 0 0 0 | - | again 18 0 5 0
    model Tick           |  8 | 0 0 0 | - | again 0 0 5 0
    model Raw 0 0 0 0    |  8 | 0 0 0 | - | again 9 0 5 0
    model Raw 9 0 0 0    |  8 | 0 0 0 | - | again 9 0 5 0
    model Raw 255 1 0 0  |  8 | 0 0 0 | - | again 9 0 5 0
    model Do 3 0 5       |  8 | 0 0 0 | - | again 11 0 0 0
    model Do 255 0 5     |  8 | 0 0 0 | - | again 11 0 0 0
    Deliver 0            | 13 | 0 0 0 | 1 0 0 | again 13 0 5 0
    Do 0 0 6             |  0 | 1 6 0 | 1 0 0
""")

# 10: "configuration not valid for the model" ("modes are 0 to 3"), for each command. "A step's refusal
# returns the configuration given": mode 4 and all. 9 before 10, 10 before 11 and 12.

tape("config-not-valid", KINDS, """
    config Do 0 0 5       | 10 | 0 0 0 | 4 0 0 | again 0 1 5 0
    config Reserve 0      | 10 | 0 0 0 | 4 0 0 | again 0 1 5 0
    config Deliver 0      | 10 | 0 0 0 | 4 0 0 | again 0 0 5 0
    config Take 1 0       | 10 | 0 0 0 | 1 0 0 | again 0 0 5 0
    config Run 0          | 10 | 0 0 0 | 4 0 0 | again 13 0 5 0
    config Expire 0       | 10 | 0 0 0 | 4 0 0 | again 18 0 5 0
    config Cancel 0       | 10 | 0 0 0 | 4 0 0 | again 18 0 5 0
    config Tick           | 10 | 0 0 0 | 4 0 0 | again 0 0 5 0
    config Raw 0 0 0 0    |  9 | 0 0 0 | 4 0 0 | again 9 0 5 0
    config Raw 9 1 0 0    |  9 | 0 0 0 | 1 0 0 | again 9 0 5 0
    config Raw 255 3 0 0  |  9 | 0 0 0 | -
    config Do 3 0 5       | 10 | 0 0 0 | -     | again 11 0 0 0
    config Cancel 255     | 10 | 0 0 0 | -     | again 11 0 0 0
    config Do 2 0 5       | 10 | 0 0 0 | 0 0 0 | again 12 0 0 0
    Tick                  |  0 | 0 0 0 | 1 1 0 | again 0 0 5 0
    Do 0 0 6              |  0 | 1 6 0 | 1 0 0
""")

# The same from a configuration that has words, waits, a mask and an entry.

tape("not-valid-later", KINDS, """
    Do 0 0 5          |  0 | 1 5 0 | 1 0 0
    Tick              |  0 | 1 5 0 | 1 1 0
    Reserve 0         |  0 | 1 5 0 | 1 1 2 | -     | 2 0 0 0 0
    config Deliver 0  | 10 | 1 5 0 | 4 1 2         | again 0 0 5 0
    config Take 1 0   | 10 | 0 0 1 | 1 1 0 | 0.0   | again 0 0 5 0
    config Tick       | 10 | 1 5 0 | 4 1 2         | again 0 0 5 0
    model Deliver 0   |  8 | 0 0 0 | -             | again 13 0 5 0
    model Tick        |  8 | 0 0 0 | -             | again 0 0 5 0
    Tick              |  0 | 1 5 0 | 1 2 2         | again 0 0 5 0
    Run 1             | 13 | 0 0 1 | 1 2 0 | 0.0   | again 13 0 5 0
    Deliver 0         |  0 | 0 5 0 | 1 0 0         | again 13 0 5 0
    Run 1             | 13 | 0 0 1 | 1 2 0 | 0.0=5 | again 13 0 5 0
""")

# "A step's refusal returns the configuration given": waits, words, masks and pools stay.

tape("refused-untouched", KINDS, """
    Do 0 0 5     |  0 | 1 5 0 | 1 0 0
    Reserve 0    |  0 | 1 5 0 | 1 0 2 | -   | 2 0 0 0 0
    Tick         |  0 | 1 5 0 | 1 1 2
    Do 0 0 6     | 13 | 1 5 0 | 1 1 2
    Expire 0     | 18 | 1 5 0 | 1 1 2
    Cancel 0     | 18 | 1 5 0 | 1 1 2
    Take 1 2     | 14 | 0 0 1 | 1 1 0 | 0.0
    Take 1 1     | 15 | 0 0 1 | 1 1 0 | 0.0
    Take 1 0     | 15 | 0 0 1 | 1 1 0 | 0.0
    Do 2 0 6     | 12 | 0 0 0 | 0 0 0
    Raw 9 1 0 6  |  9 | 0 0 1 | 1 1 0 | 0.0
    Tick         |  0 | 1 5 0 | 1 2 2
""")

# ---- Pools: the order of the entries, Take, 16 places


def sender(mask):
    """Its internal state 0 has exits to three sends, of the types 0, 1 and 31, which lead back."""
    return [internal(1, 2, 3)] + [send(mask, t, 0, cancel=0) for t in (0, 1, 31)]


# Subject 1 receives: exit 0 (0, 0), 1 (0, 1), 2 (2, 0), 3 (2, 1), 4 (3, 0), 5 (3, 31); 6 and 7 are
# 0 and 2 once more, to the end.
OWNER = [
    receive((0, 0, 0), (0, 1, 0), (2, 0, 0), (2, 1, 0), (3, 0, 0), (3, 31, 0), (0, 0, 1), (2, 0, 1)),
    end(),
]
POOL = named("model-pool", model(0b1111, [sender(0b10), OWNER, sender(0b10), sender(0b10)]))

# Take: "the earliest message that matches the exit's sender and type is removed, later entries move
# up ...; its content becomes the word".

tape("take-earliest", POOL, """
    Do 0 0 10    |  0 | 1 10 0 | 1 0 0
    Reserve 0    |  0 | 1 10 0 | 1 0 2 | -             | 2 0 0 0 0
    Deliver 0    |  0 | 0 10 0 | 1 0 0
    Do 0 0 11    |  0 | 1 11 0 | 1 0 0
    Reserve 0    |  0 | 1 11 0 | 1 0 2 | -             | 2 0 0 0 0
    Deliver 0    |  0 | 0 11 0 | 1 0 0
    Do 0 1 12    |  0 | 2 12 0 | 1 0 0
    Reserve 0    |  0 | 2 12 0 | 1 0 2 | -             | 2 0 0 0 0
    Run 1        | 13 | 0 0 3  | 1 0 0 | 0.0=10 0.0=11 0.1
    Take 1 0     |  0 | 0 10 2 | 1 0 0 | 0.0=11 0.1
    Take 1 0     |  0 | 0 11 1 | 1 0 0 | 0.1
    Take 1 0     | 15 | 0 11 1 | 1 0 0 | 0.1
    Take 1 1     | 15 | 0 11 1 | 1 0 0 | 0.1
    Deliver 0    |  0 | 0 12 0 | 1 0 0
    Take 1 1     |  0 | 0 12 0 | 1 0 0
    Take 1 1     | 15 | 0 12 0 | 1 0 0
""")

# "reservations before it are passed over", and messages that do not match. "Handing over a
# reservation as content 0" is the error.

tape("take-passes-over", POOL, """
    Do 0 0 10    |  0 | 1 10 0 | 1 0 0
    Reserve 0    |  0 | 1 10 0 | 1 0 2 | -             | 2 0 0 0 0
    Do 2 1 20    |  0 | 2 20 0 | 1 0 0
    Reserve 2    |  0 | 2 20 0 | 1 0 2 | -             | 2 0 0 0 0
    Deliver 2    |  0 | 0 20 0 | 1 0 0
    Do 2 0 21    |  0 | 1 21 0 | 1 0 0
    Reserve 2    |  0 | 1 21 0 | 1 0 2 | -             | 2 0 0 0 0
    Deliver 2    |  0 | 0 21 0 | 1 0 0
    Do 3 2 30    |  0 | 3 30 0 | 1 0 0
    Reserve 3    |  0 | 3 30 0 | 1 0 2 | -             | 2 0 0 0 0
    Deliver 3    |  0 | 0 30 0 | 1 0 0
    Run 1        | 13 | 0 0 4  | 1 0 0 | 0.0 2.1=20 2.0=21 3.31=30
    Take 1 0     | 15 | 0 0 4  | 1 0 0 | 0.0 2.1=20 2.0=21 3.31=30
    Take 1 2     |  0 | 0 21 3 | 1 0 0 | 0.0 2.1=20 3.31=30
    Take 1 4     | 15 | 0 21 3 | 1 0 0 | 0.0 2.1=20 3.31=30
    Take 1 5     |  0 | 0 30 2 | 1 0 0 | 0.0 2.1=20
    Deliver 0    |  0 | 0 10 0 | 1 0 0
    Take 1 1     | 15 | 0 30 2 | 1 0 0 | 0.0=10 2.1=20
    Take 1 0     |  0 | 0 10 1 | 1 0 0 | 2.1=20
    Take 1 3     |  0 | 0 20 0 | 1 0 0
""")

# Deliver: "each reservation becomes a message with the sender's word, at the same place in the line".
# "Appending the message at Deliver instead of replacing its reservation" is the error.

tape("deliver-in-place", POOL, """
    Do 0 0 10    |  0 | 1 10 0 | 1 0 0
    Reserve 0    |  0 | 1 10 0 | 1 0 2 | -             | 2 0 0 0 0
    Do 2 0 20    |  0 | 1 20 0 | 1 0 0
    Reserve 2    |  0 | 1 20 0 | 1 0 2 | -             | 2 0 0 0 0
    Do 3 0 30    |  0 | 1 30 0 | 1 0 0
    Reserve 3    |  0 | 1 30 0 | 1 0 2 | -             | 2 0 0 0 0
    Run 1        | 13 | 0 0 3  | 1 0 0 | 0.0 2.0 3.0
    Deliver 3    |  0 | 0 30 0 | 1 0 0
    Run 1        | 13 | 0 0 3  | 1 0 0 | 0.0 2.0 3.0=30
    Deliver 0    |  0 | 0 10 0 | 1 0 0
    Run 1        | 13 | 0 0 3  | 1 0 0 | 0.0=10 2.0 3.0=30
    Do 0 0 11    |  0 | 1 11 0 | 1 0 0
    Reserve 0    |  0 | 1 11 0 | 1 0 2 | -             | 2 0 0 0 0
    Deliver 2    |  0 | 0 20 0 | 1 0 0
    Run 1        | 13 | 0 0 4  | 1 0 0 | 0.0=10 2.0=20 3.0=30 0.0
    Deliver 0    |  0 | 0 11 0 | 1 0 0
    Run 1        | 13 | 0 0 4  | 1 0 0 | 0.0=10 2.0=20 3.0=30 0.0=11
""")

# Cancel: "own reservations are withdrawn from all pools, the order of the rest stays". Own messages stay.

tape("withdraw-order", POOL, """
    Do 0 1 10    |  0 | 2 10 0 | 1 0 0
    Reserve 0    |  0 | 2 10 0 | 1 0 2 | -             | 2 0 0 0 0
    Deliver 0    |  0 | 0 10 0 | 1 0 0
    Do 2 0 20    |  0 | 1 20 0 | 1 0 0
    Reserve 2    |  0 | 1 20 0 | 1 0 2 | -             | 2 0 0 0 0
    Do 0 1 11    |  0 | 2 11 0 | 1 0 0
    Reserve 0    |  0 | 2 11 0 | 1 0 2 | -             | 2 0 0 0 0
    Do 3 2 30    |  0 | 3 30 0 | 1 0 0
    Reserve 3    |  0 | 3 30 0 | 1 0 2 | -             | 2 0 0 0 0
    Run 1        | 13 | 0 0 4  | 1 0 0 | 0.1=10 2.0 0.1 3.31
    Cancel 0     |  0 | 0 11 0 | 1 0 0
    Run 1        | 13 | 0 0 3  | 1 0 0 | 0.1=10 2.0 3.31
    Deliver 2    |  0 | 0 20 0 | 1 0 0
    Do 0 0 12    |  0 | 1 12 0 | 1 0 0
    Reserve 0    |  0 | 1 12 0 | 1 0 2 | -             | 2 0 0 0 0
    Run 1        | 13 | 0 0 4  | 1 0 0 | 0.1=10 2.0=20 3.31 0.0
    Cancel 3     |  0 | 0 30 0 | 1 0 0
    Run 1        | 13 | 0 0 3  | 1 0 0 | 0.1=10 2.0=20 0.0
    Take 1 1     |  0 | 0 10 2 | 1 0 0 | 2.0=20 0.0
    Cancel 0     |  0 | 0 12 0 | 1 0 0
    Run 1        | 13 | 0 10 1 | 1 0 0 | 2.0=20
    Take 1 2     |  0 | 0 20 0 | 1 0 0
""")

# Exits 6 and 7 name what 0 and 2 name and have another target: "target entered", "for an end the
# mode becomes 3 if a message is left in the own pool, else 2". What is taken is gone by then.

tape("take-to-end", POOL, """
    Do 0 0 10    |  0 | 1 10 0 | 1 0 0
    Reserve 0    |  0 | 1 10 0 | 1 0 2 | -             | 2 0 0 0 0
    Deliver 0    |  0 | 0 10 0 | 1 0 0
    Take 1 8     | 14 | 0 0 1  | 1 0 0 | 0.0=10
    Take 1 255   | 14 | 0 0 1  | 1 0 0 | 0.0=10
    Take 1 7     | 15 | 0 0 1  | 1 0 0 | 0.0=10
    Take 1 6     |  0 | 1 10 0 | 2 0 0
    Take 1 6     | 12 | 1 10 0 | 2 0 0
""")

# A message is left, and a reservation: mode 3. 17: "a receiver ended improperly". The message stays in the
# pool, and Cancel withdraws the reservation alone; who has ended improperly stays so. "ended improperly" is
# the first thing that Reserve looks at.

tape("take-to-end-improper", POOL, """
    Do 0 0 10       |  0 | 1 10 0 | 1 0 0
    Reserve 0       |  0 | 1 10 0 | 1 0 2 | -             | 2 0 0 0 0
    Do 2 0 20       |  0 | 1 20 0 | 1 0 0
    Reserve 2       |  0 | 1 20 0 | 1 0 2 | -             | 2 0 0 0 0
    Deliver 2       |  0 | 0 20 0 | 1 0 0
    Do 2 0 21       |  0 | 1 21 0 | 1 0 0
    Reserve 2       |  0 | 1 21 0 | 1 0 2 | -             | 2 0 0 0 0
    Deliver 2       |  0 | 0 21 0 | 1 0 0
    Take 1 7        |  0 | 1 20 2 | 3 0 0 | 0.0 2.0=21
    Deliver 0       | 17 | 1 10 0 | 1 0 2
    value Deliver 0 | 17 | 1 10 0 | 1 0 2
    Take 1 2        | 12 | 1 20 2 | 3 0 0 | 0.0 2.0=21
    Reserve 0       |  0 | 1 10 0 | 1 0 2 | -             | 0 0 0 0 0
    Deliver 0       | 17 | 1 10 0 | 1 0 2
    Cancel 0        |  0 | 0 10 0 | 1 0 0
    Take 1 2        | 12 | 1 20 1 | 3 0 0 | 2.0=21
    Do 0 0 11       |  0 | 1 11 0 | 1 0 0
    Reserve 0       |  0 | 1 11 0 | 1 0 0 | -             | 0 2 0 0 1
    Deliver 0       | 16 | 1 11 0 | 1 0 0
    Do 2 0 22       |  0 | 1 22 0 | 1 0 0
    Reserve 2       |  0 | 1 22 0 | 1 0 0 | -             | 0 2 0 0 1
""")

# The last message is taken and two reservations are left: mode 2. Deliver 3 starts 1; its message stands
# behind the reservation of 0, which waits on until Deliver 0 finds 1 running.

tape("take-to-end-waiting", POOL, """
    Do 0 0 10    |  0 | 1 10 0 | 1 0 0
    Reserve 0    |  0 | 1 10 0 | 1 0 2 | -             | 2 0 0 0 0
    Do 2 0 20    |  0 | 1 20 0 | 1 0 0
    Reserve 2    |  0 | 1 20 0 | 1 0 2 | -             | 2 0 0 0 0
    Deliver 2    |  0 | 0 20 0 | 1 0 0
    Do 3 0 30    |  0 | 1 30 0 | 1 0 0
    Reserve 3    |  0 | 1 30 0 | 1 0 2 | -             | 2 0 0 0 0
    Run 1        | 13 | 0 0 3  | 1 0 0 | 0.0 2.0=20 3.0
    Take 1 7     |  0 | 1 20 2 | 2 0 0 | 0.0 3.0
    Tick         |  0 | 1 10 0 | 1 1 2
    Take 1 4     | 12 | 1 20 2 | 2 0 0 | 0.0 3.0
    Deliver 3    |  0 | 0 30 0 | 1 0 0
    Take 1 0     | 15 | 0 0 2  | 1 0 0 | 0.0 3.0=30
    Tick         |  0 | 1 10 0 | 1 2 2
    Deliver 0    |  0 | 0 10 0 | 1 0 0
    Run 1        | 13 | 0 0 2  | 1 1 0 | 0.0=10 3.0=30
    Take 1 4     |  0 | 0 30 1 | 1 0 0 | 0.0=10
    Take 1 6     |  0 | 1 10 0 | 2 0 0
""")

# "16 entries a pool"; "full (a matching row has no room or the pool has 16 entries)". There is no row.

tape("pool-16", POOL, "".join(f"""
    Do 0 0 {w}   |  0 | 1 {w} 0 | 1 0 0
    Reserve 0    |  0 | 1 {w} 0 | 1 0 2 | -             | 2 0 0 0 0
    Deliver 0    |  0 | 0 {w} 0 | 1 0 0""" for w in range(101, 116)).lstrip("\n") + """
    Run 1        | 13 | 0 0 15  | 1 0 0 | 0.0=101 0.0=102 0.0=103 0.0=104 0.0=105 0.0=106 0.0=107 0.0=108 \
        0.0=109 0.0=110 0.0=111 0.0=112 0.0=113 0.0=114 0.0=115
    # the sixteenth as a reservation: "reservations included"
    Do 2 0 20    |  0 | 1 20 0  | 1 0 0
    Reserve 2    |  0 | 1 20 0  | 1 0 2 | -             | 2 0 0 0 0
    Do 0 0 116   |  0 | 1 116 0 | 1 0 0
    Reserve 0    |  0 | 1 116 0 | 1 0 0 | -             | 0 0 0 2 1
    Deliver 2    |  0 | 0 20 0  | 1 0 0
    Reserve 0    |  0 | 1 116 0 | 1 0 0 | -             | 0 0 0 2 1
    Deliver 0    | 16 | 1 116 0 | 1 0 0
    Do 3 1 30    |  0 | 2 30 0  | 1 0 0
    Reserve 3    |  0 | 2 30 0  | 1 0 0 | -             | 0 0 0 2 1
    Run 1        | 13 | 0 0 16  | 1 0 0 | 0.0=101 0.0=102 0.0=103 0.0=104 0.0=105 0.0=106 0.0=107 0.0=108 \
        0.0=109 0.0=110 0.0=111 0.0=112 0.0=113 0.0=114 0.0=115 2.0=20
    Take 1 2     |  0 | 0 20 15 | 1 0 0 | 0.0=101 0.0=102 0.0=103 0.0=104 0.0=105 0.0=106 0.0=107 0.0=108 \
        0.0=109 0.0=110 0.0=111 0.0=112 0.0=113 0.0=114 0.0=115
    Reserve 0    |  0 | 1 116 0 | 1 0 2 | -             | 2 0 0 0 0
    Reserve 3    |  0 | 2 30 0  | 1 0 0 | -             | 0 0 0 2 1
    Take 1 0     |  0 | 0 101 15 | 1 0 0 | 0.0=102 0.0=103 0.0=104 0.0=105 0.0=106 0.0=107 0.0=108 0.0=109 \
        0.0=110 0.0=111 0.0=112 0.0=113 0.0=114 0.0=115 0.0
    Reserve 3    |  0 | 2 30 0  | 1 0 2 | -             | 2 0 0 0 0
    Deliver 0    |  0 | 0 116 0 | 1 0 0
    Take 1 0     |  0 | 0 102 15 | 1 0 0 | 0.0=103 0.0=104 0.0=105 0.0=106 0.0=107 0.0=108 0.0=109 0.0=110 \
        0.0=111 0.0=112 0.0=113 0.0=114 0.0=115 0.0=116 3.1
""")

# ---- Limits

# "A row is kept when at most its limit of entries, reservations included, match its sender and type.
# All matching rows count." Owner 1: 1 of (0, 0), 2 of (0, any), 2 of (any, 1), 4 of (any, any).
LIMITS = named("model-limits", model(
    0b1111,
    [sender(0b10), OWNER, sender(0b10), sender(0b10)],
    [(1, 0, 0, 1), (1, 0, ANY, 2), (1, ANY, 1, 2), (1, ANY, ANY, 4)],
))

# Row (0, 0): "full (a matching row has no room ...)".

tape("limit-one-type", LIMITS, """
    Do 0 0 10    |  0 | 1 10 0 | 1 0 0
    Reserve 0    |  0 | 1 10 0 | 1 0 2 | -             | 2 0 0 0 0
    Deliver 0    |  0 | 0 10 0 | 1 0 0
    Do 0 0 11    |  0 | 1 11 0 | 1 0 0
    Reserve 0    |  0 | 1 11 0 | 1 0 0 | -             | 0 0 0 2 1
    # row (0, 0) has no room, (2, 0) is not in it
    Do 2 0 20    |  0 | 1 20 0 | 1 0 0
    Reserve 2    |  0 | 1 20 0 | 1 0 2 | -             | 2 0 0 0 0
    Take 1 0     |  0 | 0 10 1 | 1 0 0 | 2.0
    Reserve 0    |  0 | 1 11 0 | 1 0 2 | -             | 2 0 0 0 0
    Run 1        | 13 | 0 10 2 | 1 0 0 | 2.0 0.0
""")

# "All matching rows count": the wider row (0, any) is full, the narrower is not.

tape("limit-any-type", LIMITS, """
    Do 0 1 10    |  0 | 2 10 0 | 1 0 0
    Reserve 0    |  0 | 2 10 0 | 1 0 2 | -             | 2 0 0 0 0
    Deliver 0    |  0 | 0 10 0 | 1 0 0
    Do 0 2 11    |  0 | 3 11 0 | 1 0 0
    Reserve 0    |  0 | 3 11 0 | 1 0 2 | -             | 2 0 0 0 0
    Deliver 0    |  0 | 0 11 0 | 1 0 0
    # row (0, 0) has room, row (0, any) has none
    Do 0 0 12    |  0 | 1 12 0 | 1 0 0
    Reserve 0    |  0 | 1 12 0 | 1 0 0 | -             | 0 0 0 2 1
    Cancel 0     |  0 | 0 12 0 | 1 0 0
    Do 0 2 13    |  0 | 3 13 0 | 1 0 0
    Reserve 0    |  0 | 3 13 0 | 1 0 0 | -             | 0 0 0 2 1
    Take 1 1     |  0 | 0 10 1 | 1 0 0 | 0.31=11
    Reserve 0    |  0 | 3 13 0 | 1 0 2 | -             | 2 0 0 0 0
    Run 1        | 13 | 0 10 2 | 1 0 0 | 0.31=11 0.31
""")

# "Counting only messages against a limit, so reservations overfill a pool" is the error.

tape("limit-any-sender", LIMITS, """
    Do 0 1 10    |  0 | 2 10 0 | 1 0 0
    Reserve 0    |  0 | 2 10 0 | 1 0 2 | -             | 2 0 0 0 0
    Do 2 1 20    |  0 | 2 20 0 | 1 0 0
    Reserve 2    |  0 | 2 20 0 | 1 0 2 | -             | 2 0 0 0 0
    Do 3 1 30    |  0 | 2 30 0 | 1 0 0
    Reserve 3    |  0 | 2 30 0 | 1 0 0 | -             | 0 0 0 2 1
    Deliver 0    |  0 | 0 10 0 | 1 0 0
    Reserve 3    |  0 | 2 30 0 | 1 0 0 | -             | 0 0 0 2 1
    Cancel 3     |  0 | 0 30 0 | 1 0 0
    # type 0 is not in row (any, 1)
    Do 3 0 31    |  0 | 1 31 0 | 1 0 0
    Reserve 3    |  0 | 1 31 0 | 1 0 2 | -             | 2 0 0 0 0
    Do 0 1 11    |  0 | 2 11 0 | 1 0 0
    Reserve 0    |  0 | 2 11 0 | 1 0 0 | -             | 0 0 0 2 1
    Cancel 2     |  0 | 0 20 0 | 1 0 0
    Reserve 0    |  0 | 2 11 0 | 1 0 2 | -             | 2 0 0 0 0
    Run 1        | 13 | 0 0 3  | 1 0 0 | 0.1=10 3.0 0.1
""")

# Row (any, any): "at most its limit of entries, reservations included, match its sender and type".

tape("limit-any-any", LIMITS, """
    Do 2 0 20    |  0 | 1 20 0 | 1 0 0
    Reserve 2    |  0 | 1 20 0 | 1 0 2 | -             | 2 0 0 0 0
    Deliver 2    |  0 | 0 20 0 | 1 0 0
    Do 2 0 21    |  0 | 1 21 0 | 1 0 0
    Reserve 2    |  0 | 1 21 0 | 1 0 2 | -             | 2 0 0 0 0
    Deliver 2    |  0 | 0 21 0 | 1 0 0
    Do 3 2 30    |  0 | 3 30 0 | 1 0 0
    Reserve 3    |  0 | 3 30 0 | 1 0 2 | -             | 2 0 0 0 0
    Do 0 0 10    |  0 | 1 10 0 | 1 0 0
    Reserve 0    |  0 | 1 10 0 | 1 0 2 | -             | 2 0 0 0 0
    # four, two of them reservations
    Do 2 2 22    |  0 | 3 22 0 | 1 0 0
    Reserve 2    |  0 | 3 22 0 | 1 0 0 | -             | 0 0 0 2 1
    Deliver 0    |  0 | 0 10 0 | 1 0 0
    Deliver 3    |  0 | 0 30 0 | 1 0 0
    Reserve 2    |  0 | 3 22 0 | 1 0 0 | -             | 0 0 0 2 1
    Run 1        | 13 | 0 0 4  | 1 0 0 | 2.0=20 2.0=21 3.31=30 0.0=10
    Take 1 5     |  0 | 0 30 3 | 1 0 0 | 2.0=20 2.0=21 0.0=10
    Reserve 2    |  0 | 3 22 0 | 1 0 2 | -             | 2 0 0 0 0
    Deliver 2    |  0 | 0 22 0 | 1 0 0
    Run 1        | 13 | 0 30 4 | 1 0 0 | 2.0=20 2.0=21 0.0=10 2.31=22
""")

# ---- Reserve: the four masks

# 0 sends to 1, 2, 3 and 4. 1 only receives. 2 can close (exit 0) or end (exit 1). 3 closes, opens,
# receives. 4 receives. 5 sends to 2 and 4 (exit 0) or to 3 (exit 1). 2, 3 and 4 have room for one.
MASKS = named("model-masks", model(
    0b111111,
    [
        [internal(1), send(0b11110, 0, 0, duration=2, timeout=2, cancel=0), internal(0)],
        [receive((0, 0, 0))],
        [internal(1, 2), close(0), end()],
        [close(1), open_(2), receive((0, 0, 2), (5, 0, 2))],
        [receive((0, 0, 0), (5, 0, 0))],
        [internal(1, 2), send(0b10100, 0, 0), send(0b01000, 0, 0)],
    ],
    [(2, ANY, ANY, 1), (3, ANY, ANY, 1), (4, ANY, ANY, 1)],
))

# "The answer is four masks (placed now, improper, closed, full) and the number of receivers still
# without a place. Never blocked as a whole". 1 gets a place, 2 has ended improperly, 3 is closed, 4
# full; then 4 and 3 clear one after the other.

tape("masks-all-four", MASKS, """
    Do 5 0 50    |  0 | 1 50 0 | 1 0 0
    Reserve 5    |  0 | 1 50 0 | 1 0 20 | -            | 20 0 0 0 0
    Deliver 5    |  0 | 0 50 0 | 1 0 0
    Do 2 1 22    |  0 | 2 22 1 | 3 0 0  | 5.0=50
    Run 3        |  0 | 1 0 0  | 1 0 0
    Do 0 0 10    |  0 | 1 10 0 | 1 0 0
    Reserve 0    |  0 | 1 10 0 | 1 0 2  | -            | 2 4 8 16 3
    Deliver 0    | 16 | 1 10 0 | 1 0 2
    Reserve 0    |  0 | 1 10 0 | 1 0 2  | -            | 0 4 8 16 3
    Take 4 1     |  0 | 0 50 0 | 1 0 0
    Reserve 0    |  0 | 1 10 0 | 1 0 18 | -            | 16 4 8 0 2
    Run 3        |  0 | 2 0 0  | 1 0 0
    Reserve 0    |  0 | 1 10 0 | 1 0 26 | -            | 8 4 0 0 1
    Reserve 0    |  0 | 1 10 0 | 1 0 26 | -            | 0 4 0 0 1
    Deliver 0    | 16 | 1 10 0 | 1 0 26
    Run 1        | 13 | 0 0 1  | 1 0 0  | 0.0
    Take 3 0     | 15 | 2 0 1  | 1 0 0  | 0.0
    Take 4 0     | 15 | 0 50 1 | 1 0 0  | 0.0
    # "Withdrawing one receiver's reservation and forgetting the others" is the error.
    Cancel 0     |  0 | 0 10 0 | 1 0 0
    Run 1        | 13 | 0 0 0  | 1 0 0
    Do 2 0 23    | 12 | 2 22 1 | 3 0 0  | 5.0=50
    Take 3 0     | 15 | 2 0 0  | 1 0 0
    Take 4 0     | 15 | 0 50 0 | 1 0 0
""")

# "ended improperly, else closed for this sender and type, else full": 2 is full, then closed and full,
# then all three; 3 is closed and full, then full, then has room.

tape("masks-order", MASKS, """
    Do 5 0 50    |  0 | 1 50 0 | 1 0 0
    Reserve 5    |  0 | 1 50 0 | 1 0 20 | -            | 20 0 0 0 0
    Deliver 5    |  0 | 0 50 0 | 1 0 0
    Do 5 1 51    |  0 | 2 51 0 | 1 0 0
    Reserve 5    |  0 | 2 51 0 | 1 0 8  | -            | 8 0 0 0 0
    Deliver 5    |  0 | 0 51 0 | 1 0 0
    Do 0 0 10    |  0 | 1 10 0 | 1 0 0
    Reserve 0    |  0 | 1 10 0 | 1 0 2  | -            | 2 0 0 28 3
    Do 2 0 20    |  0 | 1 20 1 | 1 0 0  | 5.0=50
    Run 2        |  0 | 0 20 1 | 1 0 0  | 5.0=50
    Reserve 0    |  0 | 1 10 0 | 1 0 2  | -            | 0 0 4 24 3
    Do 2 1 21    |  0 | 2 21 1 | 3 0 0  | 5.0=50
    Run 3        |  0 | 1 0 1  | 1 0 0  | 5.0=51
    Reserve 0    |  0 | 1 10 0 | 1 0 2  | -            | 0 4 8 16 3
    Run 3        |  0 | 2 0 1  | 1 0 0  | 5.0=51
    Reserve 0    |  0 | 1 10 0 | 1 0 2  | -            | 0 4 0 24 3
    Take 3 1     |  0 | 2 51 0 | 1 0 0
    Reserve 0    |  0 | 1 10 0 | 1 0 10 | -            | 8 4 0 16 2
""")

# Expire: "own reservations are withdrawn from all pools"; the others' entries stay.

tape("expire-withdraws-all", MASKS, """
    Do 5 0 50    |  0 | 1 50 0 | 1 0 0
    Reserve 5    |  0 | 1 50 0 | 1 0 20 | -            | 20 0 0 0 0
    Do 0 0 10    |  0 | 1 10 0 | 1 0 0
    Reserve 0    |  0 | 1 10 0 | 1 0 10 | -            | 10 0 0 20 2
    Run 1        | 13 | 0 0 1  | 1 0 0  | 0.0
    Do 3 0 0     | 13 | 0 0 1  | 1 0 0  | 0.0
    Expire 0     | 19 | 1 10 0 | 1 0 10
    Tick         |  0 | 1 10 0 | 1 1 10
    Expire 0     | 19 | 1 10 0 | 1 1 10
    Tick         |  0 | 1 10 0 | 1 2 10
    Expire 0     |  0 | 2 10 0 | 1 0 0
    Run 1        | 13 | 0 0 0  | 1 2 0
    Run 2        | 13 | 0 0 1  | 1 2 0  | 5.0
    Do 3 0 0     | 13 | 0 0 0  | 1 2 0
    Run 4        | 13 | 0 0 1  | 1 2 0  | 5.0
    Deliver 5    |  0 | 0 50 0 | 1 0 0
    Run 4        | 13 | 0 0 1  | 1 2 0  | 5.0=50
""")

# All four get a place; Cancel withdraws all four, though Deliver would be accepted.

tape("cancel-withdraws-all", MASKS, """
    Do 0 0 10    |  0 | 1 10 0 | 1 0 0
    Reserve 0    |  0 | 1 10 0 | 1 0 30 | -            | 30 0 0 0 0
    Do 5 1 51    |  0 | 2 51 0 | 1 0 0
    Reserve 5    |  0 | 2 51 0 | 1 0 0  | -            | 0 0 0 8 1
    Cancel 0     |  0 | 0 10 0 | 1 0 0
    Run 1        | 13 | 0 0 0  | 1 0 0
    Run 2        | 13 | 0 0 0  | 1 0 0
    Do 3 0 0     | 13 | 0 0 0  | 1 0 0
    Run 4        | 13 | 0 0 0  | 1 0 0
    Reserve 5    |  0 | 2 51 0 | 1 0 8  | -            | 8 0 0 0 0
""")

# ---- Closing and opening

# 1's internal state 0: exit 0 to 1, close (any, any); 1 to 2, close (0, any); 2 to 3, close (any, 1);
# 3 to 4, close (2, 0); 4 to 5, open (any, any); 5 to 6, open (0, any); 6 to 7, open (any, 1); 7 to 8,
# from where exit 0 leads to a receive, 1 to the end, 2 back.
MARKS = named("model-marks", model(0b1111, [
    sender(0b10),
    [
        internal(1, 2, 3, 4, 5, 6, 7, 8),
        close(0),
        close(0, sender=0),
        close(0, type=1),
        close(0, sender=2, type=0),
        open_(0),
        open_(0, sender=0),
        open_(0, type=1),
        internal(9, 10, 0),
        receive((0, 0, 9), (2, 0, 9)),
        end(),
    ],
    sender(0b10),
    sender(0b10),
]))

# "marks or unmarks every matching sender (below n) and type of the own pool and leaves by exit 0".

tape("close-any", MARKS, """
    Do 1 0 7     |  0 | 1 7 0  | 1 0 0
    Run 1        |  0 | 0 7 0  | 1 0 0
    Do 0 0 10    |  0 | 1 10 0 | 1 0 0
    Reserve 0    |  0 | 1 10 0 | 1 0 0 | -             | 0 0 2 0 1
    Do 2 1 20    |  0 | 2 20 0 | 1 0 0
    Reserve 2    |  0 | 2 20 0 | 1 0 0 | -             | 0 0 2 0 1
    Do 3 2 30    |  0 | 3 30 0 | 1 0 0
    Reserve 3    |  0 | 3 30 0 | 1 0 0 | -             | 0 0 2 0 1
    Deliver 3    | 16 | 3 30 0 | 1 0 0
    Do 1 4 8     |  0 | 5 8 0  | 1 0 0
    Run 1        |  0 | 0 8 0  | 1 0 0
    Reserve 3    |  0 | 3 30 0 | 1 0 2 | -             | 2 0 0 0 0
    Reserve 0    |  0 | 1 10 0 | 1 0 2 | -             | 2 0 0 0 0
    Reserve 2    |  0 | 2 20 0 | 1 0 2 | -             | 2 0 0 0 0
    Run 1        | 13 | 0 8 3  | 1 0 0 | 3.31 0.0 2.1
""")

# Close (0, any): "every matching sender ... and type".

tape("close-one-sender", MARKS, """
    Do 1 1 7     |  0 | 2 7 0  | 1 0 0
    Run 1        |  0 | 0 7 0  | 1 0 0
    Do 0 0 10    |  0 | 1 10 0 | 1 0 0
    Reserve 0    |  0 | 1 10 0 | 1 0 0 | -             | 0 0 2 0 1
    Cancel 0     |  0 | 0 10 0 | 1 0 0
    Do 0 2 11    |  0 | 3 11 0 | 1 0 0
    Reserve 0    |  0 | 3 11 0 | 1 0 0 | -             | 0 0 2 0 1
    Do 2 0 20    |  0 | 1 20 0 | 1 0 0
    Reserve 2    |  0 | 1 20 0 | 1 0 2 | -             | 2 0 0 0 0
    Do 3 2 30    |  0 | 3 30 0 | 1 0 0
    Reserve 3    |  0 | 3 30 0 | 1 0 2 | -             | 2 0 0 0 0
    Run 1        | 13 | 0 7 2  | 1 0 0 | 2.0 3.31
""")

# Close (any, 1).

tape("close-one-type", MARKS, """
    Do 1 2 7     |  0 | 3 7 0  | 1 0 0
    Run 1        |  0 | 0 7 0  | 1 0 0
    Do 0 1 10    |  0 | 2 10 0 | 1 0 0
    Reserve 0    |  0 | 2 10 0 | 1 0 0 | -             | 0 0 2 0 1
    Do 3 1 30    |  0 | 2 30 0 | 1 0 0
    Reserve 3    |  0 | 2 30 0 | 1 0 0 | -             | 0 0 2 0 1
    Do 2 0 20    |  0 | 1 20 0 | 1 0 0
    Reserve 2    |  0 | 1 20 0 | 1 0 2 | -             | 2 0 0 0 0
    Cancel 0     |  0 | 0 10 0 | 1 0 0
    Do 0 2 11    |  0 | 3 11 0 | 1 0 0
    Reserve 0    |  0 | 3 11 0 | 1 0 2 | -             | 2 0 0 0 0
    Run 1        | 13 | 0 7 2  | 1 0 0 | 2.0 0.31
""")

# Close (2, 0): "closed for this sender and type".

tape("close-one-of-each", MARKS, """
    Do 1 3 7     |  0 | 4 7 0  | 1 0 0
    Run 1        |  0 | 0 7 0  | 1 0 0
    Do 2 0 20    |  0 | 1 20 0 | 1 0 0
    Reserve 2    |  0 | 1 20 0 | 1 0 0 | -             | 0 0 2 0 1
    Cancel 2     |  0 | 0 20 0 | 1 0 0
    Do 2 1 21    |  0 | 2 21 0 | 1 0 0
    Reserve 2    |  0 | 2 21 0 | 1 0 2 | -             | 2 0 0 0 0
    Do 0 0 10    |  0 | 1 10 0 | 1 0 0
    Reserve 0    |  0 | 1 10 0 | 1 0 2 | -             | 2 0 0 0 0
    Run 1        | 13 | 0 7 2  | 1 0 0 | 2.1 0.0
""")

# Open (0, any) after close (any, any): opening takes away only what matches.

tape("open-one-sender", MARKS, """
    Do 1 0 7     |  0 | 1 7 0  | 1 0 0
    Run 1        |  0 | 0 7 0  | 1 0 0
    Do 1 5 8     |  0 | 6 8 0  | 1 0 0
    Run 1        |  0 | 0 8 0  | 1 0 0
    Do 0 2 10    |  0 | 3 10 0 | 1 0 0
    Reserve 0    |  0 | 3 10 0 | 1 0 2 | -             | 2 0 0 0 0
    Do 2 2 20    |  0 | 3 20 0 | 1 0 0
    Reserve 2    |  0 | 3 20 0 | 1 0 0 | -             | 0 0 2 0 1
    Do 3 0 30    |  0 | 1 30 0 | 1 0 0
    Reserve 3    |  0 | 1 30 0 | 1 0 0 | -             | 0 0 2 0 1
""")

# Open (any, 1) after close (any, any).

tape("open-one-type", MARKS, """
    Do 1 0 7     |  0 | 1 7 0  | 1 0 0
    Run 1        |  0 | 0 7 0  | 1 0 0
    Do 1 6 8     |  0 | 7 8 0  | 1 0 0
    Run 1        |  0 | 0 8 0  | 1 0 0
    Do 0 1 10    |  0 | 2 10 0 | 1 0 0
    Reserve 0    |  0 | 2 10 0 | 1 0 2 | -             | 2 0 0 0 0
    Do 3 1 30    |  0 | 2 30 0 | 1 0 0
    Reserve 3    |  0 | 2 30 0 | 1 0 2 | -             | 2 0 0 0 0
    Do 2 0 20    |  0 | 1 20 0 | 1 0 0
    Reserve 2    |  0 | 1 20 0 | 1 0 0 | -             | 0 0 2 0 1
""")

# Close (0, any), then (any, 1): both hold.

tape("close-adds", MARKS, """
    Do 1 1 7     |  0 | 2 7 0  | 1 0 0
    Run 1        |  0 | 0 7 0  | 1 0 0
    Do 1 2 8     |  0 | 3 8 0  | 1 0 0
    Run 1        |  0 | 0 8 0  | 1 0 0
    Do 0 0 10    |  0 | 1 10 0 | 1 0 0
    Reserve 0    |  0 | 1 10 0 | 1 0 0 | -             | 0 0 2 0 1
    Do 3 1 30    |  0 | 2 30 0 | 1 0 0
    Reserve 3    |  0 | 2 30 0 | 1 0 0 | -             | 0 0 2 0 1
    Do 2 0 20    |  0 | 1 20 0 | 1 0 0
    Reserve 2    |  0 | 1 20 0 | 1 0 2 | -             | 2 0 0 0 0
    Run 1        | 13 | 0 8 1  | 1 0 0 | 2.0
""")

# Close (0, any) and (2, 0), then open (0, any): (2, 0) stays closed.

tape("close-two-open-one", MARKS, """
    Do 1 1 7     |  0 | 2 7 0  | 1 0 0
    Run 1        |  0 | 0 7 0  | 1 0 0
    Do 1 3 8     |  0 | 4 8 0  | 1 0 0
    Run 1        |  0 | 0 8 0  | 1 0 0
    Do 1 5 9     |  0 | 6 9 0  | 1 0 0
    Run 1        |  0 | 0 9 0  | 1 0 0
    Do 0 0 10    |  0 | 1 10 0 | 1 0 0
    Reserve 0    |  0 | 1 10 0 | 1 0 2 | -             | 2 0 0 0 0
    Do 2 0 20    |  0 | 1 20 0 | 1 0 0
    Reserve 2    |  0 | 1 20 0 | 1 0 0 | -             | 0 0 2 0 1
    Cancel 2     |  0 | 0 20 0 | 1 0 0
    Do 2 2 21    |  0 | 3 21 0 | 1 0 0
    Reserve 2    |  0 | 3 21 0 | 1 0 2 | -             | 2 0 0 0 0
""")

# "Closing removes nothing and stops no Deliver."

tape("close-stops-no-deliver", MARKS, """
    Do 2 0 20    |  0 | 1 20 0 | 1 0 0
    Reserve 2    |  0 | 1 20 0 | 1 0 2 | -             | 2 0 0 0 0
    Deliver 2    |  0 | 0 20 0 | 1 0 0
    Do 0 0 10    |  0 | 1 10 0 | 1 0 0
    Reserve 0    |  0 | 1 10 0 | 1 0 2 | -             | 2 0 0 0 0
    Do 1 0 7     |  0 | 1 7 2  | 1 0 0 | 2.0=20 0.0
    Run 1        |  0 | 0 7 2  | 1 0 0 | 2.0=20 0.0
    Reserve 0    |  0 | 1 10 0 | 1 0 2 | -             | 0 0 0 0 0
    Deliver 0    |  0 | 0 10 0 | 1 0 0
    Do 1 7 8     |  0 | 8 8 2  | 1 0 0 | 2.0=20 0.0=10
    Do 1 0 9     |  0 | 9 9 2  | 1 0 0 | 2.0=20 0.0=10
    Take 1 0     |  0 | 9 10 1 | 1 0 0 | 2.0=20
    Take 1 1     |  0 | 9 20 0 | 1 0 0
    Do 0 0 11    |  0 | 1 11 0 | 1 0 0
    Reserve 0    |  0 | 1 11 0 | 1 0 0 | -             | 0 0 2 0 1
""")

# Deliver: "receivers asleep or ended properly start at their initial state with word 0, waited 0,
# mask 0, marks kept". They are kept at the end too.

tape("marks-kept", MARKS, """
    Do 1 2 7     |  0 | 3 7 0  | 1 0 0
    Run 1        |  0 | 0 7 0  | 1 0 0
    Do 1 7 8     |  0 | 8 8 0  | 1 0 0
    Do 1 1 9     |  0 | 10 9 0 | 2 0 0
    Do 0 1 10    |  0 | 2 10 0 | 1 0 0
    Reserve 0    |  0 | 2 10 0 | 1 0 0 | -             | 0 0 2 0 1
    Do 2 0 20    |  0 | 1 20 0 | 1 0 0
    Reserve 2    |  0 | 1 20 0 | 1 0 2 | -             | 2 0 0 0 0
    Tick         |  0 | 2 10 0 | 1 1 0
    Run 1        | 12 | 10 9 1 | 2 0 0 | 2.0
    Deliver 2    |  0 | 0 20 0 | 1 0 0
    Run 1        | 13 | 0 0 1  | 1 0 0 | 2.0=20
    Reserve 0    |  0 | 2 10 0 | 1 1 0 | -             | 0 0 2 0 1
    Do 1 6 8     |  0 | 7 8 1  | 1 0 0 | 2.0=20
    Run 1        |  0 | 0 8 1  | 1 0 0 | 2.0=20
    Reserve 0    |  0 | 2 10 0 | 1 1 2 | -             | 2 0 0 0 0
    Run 1        | 13 | 0 8 2  | 1 0 0 | 2.0=20 0.1
""")

# ---- Ask-empty

# 1's internal state 0: exit 0 asks for (any, any), 1 for (0, any), 2 for (any, 1), 3 for (2, 0); 4 leads to
# a receive. What was asked leads to 5 if no entry matches, else to 6; both lead back.
ASKING = named("model-ask", model(0b111, [
    sender(0b10),
    [
        internal(1, 2, 3, 4, 7),
        ask(5, 6),
        ask(5, 6, sender=0),
        ask(5, 6, type=1),
        ask(5, 6, sender=2, type=0),
        internal(0),
        internal(0),
        receive((0, 0, 0), (2, 1, 0)),
    ],
    sender(0b10),
]))

# "ask-empty leaves by exit 0 if no entry matches, reservations included, else by exit 1".

tape("ask-no-entry", ASKING, """
    Do 1 0 1     |  0 | 1 1 0  | 1 0 0
    Run 1        |  0 | 5 1 0  | 1 0 0
    Do 1 0 2     |  0 | 0 2 0  | 1 0 0
    Do 1 1 3     |  0 | 2 3 0  | 1 0 0
    Run 1        |  0 | 5 3 0  | 1 0 0
    Do 1 0 4     |  0 | 0 4 0  | 1 0 0
    Do 1 2 5     |  0 | 3 5 0  | 1 0 0
    Run 1        |  0 | 5 5 0  | 1 0 0
    Do 1 0 6     |  0 | 0 6 0  | 1 0 0
    Do 1 3 7     |  0 | 4 7 0  | 1 0 0
    Run 1        |  0 | 5 7 0  | 1 0 0
""")

# "reservations included": a reservation alone.

tape("ask-reservation", ASKING, """
    Do 0 0 10    |  0 | 1 10 0 | 1 0 0
    Reserve 0    |  0 | 1 10 0 | 1 0 2 | -             | 2 0 0 0 0
    Do 1 0 1     |  0 | 1 1 1  | 1 0 0 | 0.0
    Run 1        |  0 | 6 1 1  | 1 0 0 | 0.0
    Do 1 0 2     |  0 | 0 2 1  | 1 0 0 | 0.0
    Do 1 1 3     |  0 | 2 3 1  | 1 0 0 | 0.0
    Run 1        |  0 | 6 3 1  | 1 0 0 | 0.0
    Do 1 0 4     |  0 | 0 4 1  | 1 0 0 | 0.0
    Do 1 2 5     |  0 | 3 5 1  | 1 0 0 | 0.0
    Run 1        |  0 | 5 5 1  | 1 0 0 | 0.0
    Do 1 0 6     |  0 | 0 6 1  | 1 0 0 | 0.0
    Do 1 3 7     |  0 | 4 7 1  | 1 0 0 | 0.0
    Run 1        |  0 | 5 7 1  | 1 0 0 | 0.0
    Do 1 0 8     |  0 | 0 8 1  | 1 0 0 | 0.0
    Do 1 0 9     |  0 | 1 9 1  | 1 0 0 | 0.0
    Cancel 0     |  0 | 0 10 0 | 1 0 0
    Run 1        |  0 | 5 9 0  | 1 0 0
""")

# A message.

tape("ask-message", ASKING, """
    Do 2 1 20    |  0 | 2 20 0 | 1 0 0
    Reserve 2    |  0 | 2 20 0 | 1 0 2 | -             | 2 0 0 0 0
    Deliver 2    |  0 | 0 20 0 | 1 0 0
    Do 1 0 1     |  0 | 1 1 1  | 1 0 0 | 2.1=20
    Run 1        |  0 | 6 1 1  | 1 0 0 | 2.1=20
    Do 1 0 2     |  0 | 0 2 1  | 1 0 0 | 2.1=20
    Do 1 1 3     |  0 | 2 3 1  | 1 0 0 | 2.1=20
    Run 1        |  0 | 5 3 1  | 1 0 0 | 2.1=20
    Do 1 0 4     |  0 | 0 4 1  | 1 0 0 | 2.1=20
    Do 1 2 5     |  0 | 3 5 1  | 1 0 0 | 2.1=20
    Run 1        |  0 | 6 5 1  | 1 0 0 | 2.1=20
    Do 1 0 6     |  0 | 0 6 1  | 1 0 0 | 2.1=20
    Do 1 3 7     |  0 | 4 7 1  | 1 0 0 | 2.1=20
    Run 1        |  0 | 5 7 1  | 1 0 0 | 2.1=20
    Do 1 0 8     |  0 | 0 8 1  | 1 0 0 | 2.1=20
    Do 1 4 9     |  0 | 7 9 1  | 1 0 0 | 2.1=20
    Take 1 1     |  0 | 0 20 0 | 1 0 0
    Do 1 0 9     |  0 | 1 9 0  | 1 0 0
    Run 1        |  0 | 5 9 0  | 1 0 0
""")

# Sender 2 of type 0: both must match one entry. (2, 1) and (0, 0) do not make a (2, 0).

tape("ask-both", ASKING, """
    Do 2 1 20    |  0 | 2 20 0 | 1 0 0
    Reserve 2    |  0 | 2 20 0 | 1 0 2 | -             | 2 0 0 0 0
    Deliver 2    |  0 | 0 20 0 | 1 0 0
    Do 0 0 10    |  0 | 1 10 0 | 1 0 0
    Reserve 0    |  0 | 1 10 0 | 1 0 2 | -             | 2 0 0 0 0
    Do 1 3 1     |  0 | 4 1 2  | 1 0 0 | 2.1=20 0.0
    Run 1        |  0 | 5 1 2  | 1 0 0 | 2.1=20 0.0
    Do 2 0 21    |  0 | 1 21 0 | 1 0 0
    Reserve 2    |  0 | 1 21 0 | 1 0 2 | -             | 2 0 0 0 0
    Do 1 0 2     |  0 | 0 2 3  | 1 0 0 | 2.1=20 0.0 2.0
    Do 1 3 3     |  0 | 4 3 3  | 1 0 0 | 2.1=20 0.0 2.0
    Run 1        |  0 | 6 3 3  | 1 0 0 | 2.1=20 0.0 2.0
""")

# ---- Deliver starts receivers

# 0 sends to 1, asleep; 2, which can end; 3, which runs. 4 sends to 2. The initial state of 1 and 2 is 1.
START = named("model-start", model(
    0b11101,
    [
        [internal(1), send(0b1110, 0, 0, cancel=0)],
        [end(), receive((0, 0, 0))],
        [end(), internal(0, 2), receive((0, 0, 0))],
        [internal(1), receive((0, 0, 2)), internal(1)],
        [internal(1), send(0b0100, 0, 0)],
    ],
    initial={1: 1, 2: 1},
))

# "receivers asleep or ended properly start at their initial state with word 0, waited 0, mask 0"; one that
# runs goes on as it is. Reserve starts nobody. "Tick: every running subject has waited one more".

tape("start", START, """
    Take 1 0     | 12 | 1 0 0  | 0 0 0
    Do 2 0 20    |  0 | 0 20 0 | 2 0 0
    Do 3 0 30    |  0 | 1 30 0 | 1 0 0
    Do 0 0 10    |  0 | 1 10 0 | 1 0 0
    Tick         |  0 | 1 10 0 | 1 1 0
    Reserve 0    |  0 | 1 10 0 | 1 1 14 | -            | 14 0 0 0 0
    Take 1 0     | 12 | 1 0 1  | 0 0 0  | 0.0
    Do 2 0 21    | 12 | 0 20 1 | 2 0 0  | 0.0
    Take 3 0     | 15 | 1 30 1 | 1 1 0  | 0.0
    Deliver 0    |  0 | 0 10 0 | 1 0 0
    Run 1        | 13 | 1 0 1  | 1 0 0  | 0.0=10
    Run 2        | 13 | 1 0 1  | 1 0 0  | 0.0=10
    Run 3        | 13 | 1 30 1 | 1 1 0  | 0.0=10
    Tick         |  0 | 0 10 0 | 1 1 0
    Run 1        | 13 | 1 0 1  | 1 1 0  | 0.0=10
    Take 1 0     |  0 | 0 10 0 | 2 0 0
    Do 2 1 22    |  0 | 2 22 1 | 1 0 0  | 0.0=10
    Take 2 0     |  0 | 0 10 0 | 2 0 0
    Take 3 0     |  0 | 2 10 0 | 1 0 0
    Tick         |  0 | 0 10 0 | 1 2 0
    Run 1        | 12 | 0 10 0 | 2 0 0
    Run 3        | 13 | 2 10 0 | 1 1 0
    # once more: both have ended properly, 3 still runs
    Do 0 0 11    |  0 | 1 11 0 | 1 0 0
    Reserve 0    |  0 | 1 11 0 | 1 0 14 | -            | 14 0 0 0 0
    Deliver 0    |  0 | 0 11 0 | 1 0 0
    Run 1        | 13 | 1 0 1  | 1 0 0  | 0.0=11
    Run 2        | 13 | 1 0 1  | 1 0 0  | 0.0=11
    Run 3        | 13 | 2 10 1 | 1 1 0  | 0.0=11
""")

# Cancel starts nobody: who slept sleeps on.

tape("start-not-by-cancel", START, """
    Do 2 0 20    |  0 | 0 20 0 | 2 0 0
    Do 0 0 10    |  0 | 1 10 0 | 1 0 0
    Reserve 0    |  0 | 1 10 0 | 1 0 14 | -            | 14 0 0 0 0
    Cancel 0     |  0 | 0 10 0 | 1 0 0
    Take 1 0     | 12 | 1 0 0  | 0 0 0
    Do 2 0 21    | 12 | 0 20 0 | 2 0 0
    Run 3        | 13 | 0 0 0  | 1 0 0
    Tick         |  0 | 0 10 0 | 1 1 0
    Take 1 0     | 12 | 1 0 0  | 0 0 0
    Do 2 0 21    | 12 | 0 20 0 | 2 0 0
""")

# 2 ends while two reservations wait: properly, and the Deliver that fills one of them starts it. The other
# waits on and becomes a message at its place. 2 then ends with messages.

tape("start-waiting", START, """
    Do 0 0 10    |  0 | 1 10 0 | 1 0 0
    Reserve 0    |  0 | 1 10 0 | 1 0 14 | -            | 14 0 0 0 0
    Do 4 0 40    |  0 | 1 40 0 | 1 0 0
    Reserve 4    |  0 | 1 40 0 | 1 0 4  | -            | 4 0 0 0 0
    Do 2 0 20    |  0 | 0 20 2 | 2 0 0  | 0.0 4.0
    Tick         |  0 | 1 10 0 | 1 1 14
    Do 2 0 21    | 12 | 0 20 2 | 2 0 0  | 0.0 4.0
    Deliver 4    |  0 | 0 40 0 | 1 0 0
    Run 2        | 13 | 1 0 2  | 1 0 0  | 0.0 4.0=40
    Take 1 0     | 12 | 1 0 1  | 0 0 0  | 0.0
    Tick         |  0 | 1 10 0 | 1 2 14
    Deliver 0    |  0 | 0 10 0 | 1 0 0
    Run 1        | 13 | 1 0 1  | 1 0 0  | 0.0=10
    Run 2        | 13 | 1 0 2  | 1 1 0  | 0.0=10 4.0=40
    Do 2 0 22    |  0 | 0 22 2 | 3 0 0  | 0.0=10 4.0=40
""")

# Cancel of one of the two: the other's reservation is still there, and its Deliver starts 2.

tape("start-waiting-cancel", START, """
    Do 0 0 10    |  0 | 1 10 0 | 1 0 0
    Reserve 0    |  0 | 1 10 0 | 1 0 14 | -            | 14 0 0 0 0
    Do 4 0 40    |  0 | 1 40 0 | 1 0 0
    Reserve 4    |  0 | 1 40 0 | 1 0 4  | -            | 4 0 0 0 0
    Do 2 0 20    |  0 | 0 20 2 | 2 0 0  | 0.0 4.0
    Cancel 0     |  0 | 0 10 0 | 1 0 0
    Do 2 0 21    | 12 | 0 20 1 | 2 0 0  | 4.0
    Deliver 4    |  0 | 0 40 0 | 1 0 0
    Run 2        | 13 | 1 0 1  | 1 0 0  | 4.0=40
    Take 1 0     | 12 | 1 0 0  | 0 0 0
""")

# 2 holds a message of 4 when it ends, and the reservation of 0: improperly, so Deliver is refused 17 and
# starts neither 1 nor 2. Cancel takes the reservation out; the message stays.

tape("start-not-improper", START, """
    Do 4 0 40    |  0 | 1 40 0 | 1 0 0
    Reserve 4    |  0 | 1 40 0 | 1 0 4  | -            | 4 0 0 0 0
    Deliver 4    |  0 | 0 40 0 | 1 0 0
    Do 0 0 10    |  0 | 1 10 0 | 1 0 0
    Reserve 0    |  0 | 1 10 0 | 1 0 14 | -            | 14 0 0 0 0
    Do 2 0 20    |  0 | 0 20 2 | 3 0 0  | 4.0=40 0.0
    Deliver 0    | 17 | 1 10 0 | 1 0 14
    value Deliver 0 | 17 | 1 10 0 | 1 0 14
    Take 1 0     | 12 | 1 0 1  | 0 0 0  | 0.0
    Do 2 0 21    | 12 | 0 20 2 | 3 0 0  | 4.0=40 0.0
    Cancel 0     |  0 | 0 10 0 | 1 0 0
    Do 2 0 21    | 12 | 0 20 1 | 3 0 0  | 4.0=40
    Take 1 0     | 12 | 1 0 0  | 0 0 0
    Do 0 0 11    |  0 | 1 11 0 | 1 0 0
    Reserve 0    |  0 | 1 11 0 | 1 0 10 | -            | 10 4 0 0 1
    Deliver 0    | 16 | 1 11 0 | 1 0 10
    Do 4 0 41    |  0 | 1 41 0 | 1 0 0
    Reserve 4    |  0 | 1 41 0 | 1 0 0  | -            | 0 4 0 0 1
""")

# ---- Waiting

# 0 sends to 1 and 2, with a timeout after 2 and a cancel target, both state 2. 1 can receive or end. 2 can
# close (exit 0), open (exit 1) or receive (exit 2).
WAIT = named("model-wait", model(0b111, [
    [internal(1), send(0b110, 0, 0, duration=2, timeout=2, cancel=2), internal(0)],
    [internal(1, 2), receive((0, 0, 0)), end()],
    [internal(1, 2, 3), close(0), open_(0), receive((0, 0, 0))],
]))

# 20: "Expire in a send where Deliver would be accepted". "Letting a timeout win over a send that can
# deliver" is the error. 19 before 20: both hold after 0 and after 1 ticks. Reserve enters no state: the
# wait goes on.

tape("expire-can-deliver", WAIT, """
    Do 0 0 10    |  0 | 1 10 0 | 1 0 0
    Expire 0     | 19 | 1 10 0 | 1 0 0
    Reserve 0    |  0 | 1 10 0 | 1 0 6 | -             | 6 0 0 0 0
    Expire 0     | 19 | 1 10 0 | 1 0 6
    Tick         |  0 | 1 10 0 | 1 1 6
    Expire 0     | 19 | 1 10 0 | 1 1 6
    Tick         |  0 | 1 10 0 | 1 2 6
    Expire 0     | 20 | 1 10 0 | 1 2 6
    value Expire 0 | 20 | 1 10 0 | 1 2 6
    Tick         |  0 | 1 10 0 | 1 3 6
    Expire 0     | 20 | 1 10 0 | 1 3 6
    Deliver 0    |  0 | 0 10 0 | 1 0 0
    Run 1        | 13 | 0 0 1  | 1 3 0 | 0.0=10
    Run 2        | 13 | 0 0 1  | 1 3 0 | 0.0=10
""")

# 20 also where 1 has ended with the reservation waiting: properly, so Deliver would be accepted and start it.

tape("expire-end-waiting", WAIT, """
    Do 0 0 10    |  0 | 1 10 0 | 1 0 0
    Reserve 0    |  0 | 1 10 0 | 1 0 6 | -             | 6 0 0 0 0
    Do 1 1 11    |  0 | 2 11 1 | 2 0 0 | 0.0
    Tick         |  0 | 1 10 0 | 1 1 6
    Expire 0     | 19 | 1 10 0 | 1 1 6
    Tick         |  0 | 1 10 0 | 1 2 6
    Expire 0     | 20 | 1 10 0 | 1 2 6
    Deliver 0    |  0 | 0 10 0 | 1 0 0
    Run 1        | 13 | 0 0 1  | 1 0 0 | 0.0=10
    Run 2        | 13 | 0 0 1  | 1 2 0 | 0.0=10
""")

# Deliver would be refused 16: Expire is accepted. Here nothing was reserved, ..

tape("expire-no-place", WAIT, """
    Do 0 0 10    |  0 | 1 10 0 | 1 0 0
    Tick         |  0 | 1 10 0 | 1 1 0
    Tick         |  0 | 1 10 0 | 1 2 0
    Deliver 0    | 16 | 1 10 0 | 1 2 0
    Expire 0     |  0 | 2 10 0 | 1 0 0
    Expire 0     | 18 | 2 10 0 | 1 0 0
""")

# .. here one place is missing ..

tape("expire-place-missing", WAIT, """
    Do 2 0 20    |  0 | 1 20 0 | 1 0 0
    Run 2        |  0 | 0 20 0 | 1 0 0
    Do 0 0 10    |  0 | 1 10 0 | 1 0 0
    Tick         |  0 | 1 10 0 | 1 1 0
    Reserve 0    |  0 | 1 10 0 | 1 1 2 | -             | 2 0 4 0 1
    Run 1        | 13 | 0 0 1  | 1 1 0 | 0.0
    Tick         |  0 | 1 10 0 | 1 2 2
    Expire 0     |  0 | 2 10 0 | 1 0 0
    Run 1        | 13 | 0 0 0  | 1 2 0
    Run 2        | 13 | 0 20 0 | 1 2 0
""")

# .. and here Deliver would be refused 17: 1 held a message when it ended. Both reservations are withdrawn, the
# messages stay; 1 has ended improperly for good.

tape("expire-improper", WAIT, """
    Do 0 0 10    |  0 | 1 10 0 | 1 0 0
    Reserve 0    |  0 | 1 10 0 | 1 0 6 | -             | 6 0 0 0 0
    Deliver 0    |  0 | 0 10 0 | 1 0 0
    Do 0 0 11    |  0 | 1 11 0 | 1 0 0
    Reserve 0    |  0 | 1 11 0 | 1 0 6 | -             | 6 0 0 0 0
    Do 1 1 12    |  0 | 2 12 2 | 3 0 0 | 0.0=10 0.0
    Tick         |  0 | 1 11 0 | 1 1 6
    Expire 0     | 19 | 1 11 0 | 1 1 6
    Tick         |  0 | 1 11 0 | 1 2 6
    Deliver 0    | 17 | 1 11 0 | 1 2 6
    Expire 0     |  0 | 2 11 0 | 1 0 0
    Do 1 0 13    | 12 | 2 12 1 | 3 0 0 | 0.0=10
    Run 2        | 13 | 0 0 1  | 1 2 0 | 0.0=10
    Do 0 0 14    |  0 | 0 14 0 | 1 0 0
    Do 0 0 15    |  0 | 1 15 0 | 1 0 0
    Reserve 0    |  0 | 1 15 0 | 1 0 4 | -             | 4 2 0 0 1
""")

# 16 before 17: 2's place is missing and 1 has ended improperly, with a message and the reservation. Then 2 opens:
# "for each receiver not in the mask", so Reserve says nothing of 1, which holds its place; nothing is missing; now 17.

tape("deliver-16-before-17", WAIT, """
    Do 0 0 10    |  0 | 1 10 0 | 1 0 0
    Reserve 0    |  0 | 1 10 0 | 1 0 6 | -             | 6 0 0 0 0
    Deliver 0    |  0 | 0 10 0 | 1 0 0
    Do 2 0 20    |  0 | 1 20 1 | 1 0 0 | 0.0=10
    Run 2        |  0 | 0 20 1 | 1 0 0 | 0.0=10
    Do 0 0 11    |  0 | 1 11 0 | 1 0 0
    Reserve 0    |  0 | 1 11 0 | 1 0 2 | -             | 2 0 4 0 1
    Do 1 1 12    |  0 | 2 12 2 | 3 0 0 | 0.0=10 0.0
    Deliver 0    | 16 | 1 11 0 | 1 0 2
    Reserve 0    |  0 | 1 11 0 | 1 0 2 | -             | 0 0 4 0 1
    Do 2 1 21    |  0 | 2 21 1 | 1 0 0 | 0.0=10
    Run 2        |  0 | 0 21 1 | 1 0 0 | 0.0=10
    Reserve 0    |  0 | 1 11 0 | 1 0 6 | -             | 4 0 0 0 0
    Deliver 0    | 17 | 1 11 0 | 1 0 6
    Run 1        | 12 | 2 12 2 | 3 0 0 | 0.0=10 0.0
""")

# Cancel asks neither for a wait nor whether Deliver would be accepted.

tape("cancel-can-deliver", WAIT, """
    Do 0 0 10    |  0 | 1 10 0 | 1 0 0
    Cancel 0     |  0 | 2 10 0 | 1 0 0
    Cancel 0     | 18 | 2 10 0 | 1 0 0
    Do 0 0 11    |  0 | 0 11 0 | 1 0 0
    Do 0 0 12    |  0 | 1 12 0 | 1 0 0
    Reserve 0    |  0 | 1 12 0 | 1 0 6 | -             | 6 0 0 0 0
    Cancel 0     |  0 | 2 12 0 | 1 0 0
    Run 1        | 13 | 0 0 0  | 1 0 0
    Run 2        | 13 | 0 0 0  | 1 0 0
    Deliver 0    | 13 | 2 12 0 | 1 0 0
""")

# One subject. State 0, internal, leads to itself, after 1 to state 1, a receive, which after 2 leads back;
# cancel from both to the end.
STAY = named("model-stay", model(0b1, [[
    internal(0, duration=1, timeout=1, cancel=2),
    receive((0, 0, 0), duration=2, timeout=0, cancel=2),
    end(),
]]))

# 19: "waited less than the duration"; at the duration it is accepted, and after it. "Entering a state ..:
# state set, waited 0", also where the state was the same; a refusal leaves the wait.

tape("expire-at-duration", STAY, """
    Expire 0     | 19 | 0 0 0 | 1 0 0
    Tick         |  0 | 0 0 0 | 1 1 0
    Take 0 0     | 13 | 0 0 0 | 1 1 0
    Expire 0     |  0 | 1 0 0 | 1 0 0
    Expire 0     | 19 | 1 0 0 | 1 0 0
    Tick         |  0 | 1 0 0 | 1 1 0
    Take 0 0     | 15 | 1 0 0 | 1 1 0
    Expire 0     | 19 | 1 0 0 | 1 1 0
    Tick         |  0 | 1 0 0 | 1 2 0
    Tick         |  0 | 1 0 0 | 1 3 0
    Expire 0     |  0 | 0 0 0 | 1 0 0
    Tick         |  0 | 0 0 0 | 1 1 0
    Do 0 0 9     |  0 | 0 9 0 | 1 0 0
    Expire 0     | 19 | 0 9 0 | 1 0 0
    Tick         |  0 | 0 9 0 | 1 1 0
    Cancel 0     |  0 | 2 9 0 | 2 0 0
    Tick         |  0 | 2 9 0 | 2 0 0
    Expire 0     | 12 | 2 9 0 | 2 0 0
""")

# Cancel in a receive; 11 for the subject 1 of one.

tape("cancel-receive", STAY, """
    Tick         |  0 | 0 0 0 | 1 1 0
    Expire 0     |  0 | 1 0 0 | 1 0 0
    Tick         |  0 | 1 0 0 | 1 1 0
    Cancel 0     |  0 | 2 0 0 | 2 0 0
    Do 1 0 0     | 11 | 0 0 0 | -
    Do 0 0 0     | 12 | 2 0 0 | 2 0 0
""")

# 0 and 1 run, with the durations 65,535 and 259 (256 + 3: "low byte first"); 2 sleeps.
LONG = named("model-long", model(0b011, [
    [internal(1, duration=65535, timeout=1), end()],
    [receive((0, 0, 0), duration=259, timeout=0)],
    [internal(0)],
]))

# "every running subject has waited one more, up to 65,535". `after 254` and the Tick itself make 255
# ticks, 256 times: 65,280; `after 253` makes 65,534. Run again as plain commands these are 257 ticks.

tape("tick-65535", LONG, "".join(f"""
    after 254 Tick | 0 | 0 0 0 | 1 {waited} 0""" for waited in range(255, 65281, 255)).lstrip("\n") + """
    after 253 Tick |  0 | 0 0 0 | 1 65534 0
    Expire 0       | 19 | 0 0 0 | 1 65534 0
    Run 1          | 13 | 0 0 0 | 1 65534 0
    Do 2 0 0       | 12 | 0 0 0 | 0 0 0
    Tick           |  0 | 0 0 0 | 1 65535 0
    Tick           |  0 | 0 0 0 | 1 65535 0
    value Tick     |  0 | 0 0 0 | 1 65535 0
    after 254 Tick |  0 | 0 0 0 | 1 65535 0
    Run 1          | 13 | 0 0 0 | 1 65535 0
    Expire 1       |  0 | 0 0 0 | 1 0 0
    Tick           |  0 | 0 0 0 | 1 65535 0
    Run 1          | 13 | 0 0 0 | 1 1 0
    Expire 0       |  0 | 1 0 0 | 2 0 0     | again 19 0 0 0
    Tick           |  0 | 1 0 0 | 2 0 0     | again 0 0 0 0
""")

# 19 at 255, 256 and 258; accepted at 259. Run again as plain commands these are four ticks.

tape("expire-259", LONG, """
    after 254 Tick |  0 | 0 0 0 | 1 255 0
    Expire 1       | 19 | 0 0 0 | 1 255 0
    Tick           |  0 | 0 0 0 | 1 256 0
    Expire 1       | 19 | 0 0 0 | 1 256 0
    after 1 Tick   |  0 | 0 0 0 | 1 258 0
    Expire 1       | 19 | 0 0 0 | 1 258 0
    after 0 Tick   |  0 | 0 0 0 | 1 259 0
    Expire 1       |  0 | 0 0 0 | 1 0 0     | again 19 0 0 0
    Expire 1       | 19 | 0 0 0 | 1 0 0
""")

# ---- The own subject as a receiver

# 0: exit 0 to 1, send to itself and to 1, then 4, receive; exit 1 to 2, send to itself, then 5, the end;
# exit 2 to 3, send to itself, then 0; exit 3 to 6, close (0, 1). Cancel from 1 and 2 to the end, timeout from 2
# after 1 to 0. Room for one.
SELF = named("model-self", model(
    0b01,
    [
        [
            internal(1, 2, 3, 6),
            send(0b11, 0, 4, cancel=5),
            send(0b01, 1, 5, duration=1, timeout=0, cancel=5),
            send(0b01, 0, 0),
            receive((0, 0, 5), (0, 1, 0)),
            end(),
            close(0, sender=0, type=1),
        ],
        [receive((0, 0, 1)), end()],
    ],
    [(0, 0, ANY, 1)],
))

# The message is in the own pool when the sender enters the target; the sender runs and is not started.

tape("self-deliver", SELF, """
    Do 0 0 10    |  0 | 1 10 0 | 1 0 0
    Reserve 0    |  0 | 1 10 1 | 1 0 3 | 0.0           | 3 0 0 0 0
    Reserve 0    |  0 | 1 10 1 | 1 0 3 | 0.0           | 0 0 0 0 0
    Deliver 0    |  0 | 4 10 1 | 1 0 0 | 0.0=10
    Take 0 1     | 15 | 4 10 1 | 1 0 0 | 0.0=10
    Take 0 0     |  0 | 5 10 0 | 2 0 0
    Run 1        | 13 | 0 0 1  | 1 0 0 | 0.0=10
    Take 1 0     |  0 | 1 10 0 | 2 0 0
""")

# "for an end the mode becomes 3 if a message is left in the own pool, else 2": Deliver enters the end with
# the message, Cancel after the reservation is withdrawn.

tape("self-deliver-end", SELF, """
    Do 0 1 10    |  0 | 2 10 0 | 1 0 0
    Reserve 0    |  0 | 2 10 1 | 1 0 1 | 0.1           | 1 0 0 0 0
    Deliver 0    |  0 | 5 10 1 | 3 0 0 | 0.1=10
    Take 0 1     | 12 | 5 10 1 | 3 0 0 | 0.1=10
""")

# "own reservations are withdrawn from all pools": from the own pool, and the pool of a sleeper.

tape("self-cancel-end", SELF, """
    Do 0 1 10    |  0 | 2 10 0 | 1 0 0
    Reserve 0    |  0 | 2 10 1 | 1 0 1 | 0.1           | 1 0 0 0 0
    Cancel 0     |  0 | 5 10 0 | 2 0 0
""")

# The same of two pools.

tape("self-cancel-both", SELF, """
    Do 0 0 10    |  0 | 1 10 0 | 1 0 0
    Reserve 0    |  0 | 1 10 1 | 1 0 3 | 0.0           | 3 0 0 0 0
    Take 1 0     | 12 | 0 0 1  | 0 0 0 | 0.0
    Cancel 0     |  0 | 5 10 0 | 2 0 0
    Take 1 0     | 12 | 0 0 0  | 0 0 0
""")

# The own message fills the row (0, any): the send cannot deliver, so it may expire; Cancel then ends improperly.

tape("self-full", SELF, """
    Do 0 2 10    |  0 | 3 10 0 | 1 0 0
    Reserve 0    |  0 | 3 10 1 | 1 0 1 | 0.0           | 1 0 0 0 0
    Deliver 0    |  0 | 0 10 1 | 1 0 0 | 0.0=10
    Do 0 1 11    |  0 | 2 11 1 | 1 0 0 | 0.0=10
    Reserve 0    |  0 | 2 11 1 | 1 0 0 | 0.0=10        | 0 0 0 1 1
    Deliver 0    | 16 | 2 11 1 | 1 0 0 | 0.0=10
    Expire 0     | 19 | 2 11 1 | 1 0 0 | 0.0=10
    Tick         |  0 | 2 11 1 | 1 1 0 | 0.0=10
    Expire 0     |  0 | 0 11 1 | 1 0 0 | 0.0=10
    Do 0 0 12    |  0 | 1 12 1 | 1 0 0 | 0.0=10
    Reserve 0    |  0 | 1 12 1 | 1 0 2 | 0.0=10        | 2 0 0 1 1
    Cancel 0     |  0 | 5 12 1 | 3 0 0 | 0.0=10
    Take 1 0     | 12 | 0 0 0  | 0 0 0
""")

# 20 where the sender is its own receiver.

tape("self-expire", SELF, """
    Do 0 1 10    |  0 | 2 10 0 | 1 0 0
    Reserve 0    |  0 | 2 10 1 | 1 0 1 | 0.1           | 1 0 0 0 0
    Tick         |  0 | 2 10 1 | 1 1 1 | 0.1
    Expire 0     | 20 | 2 10 1 | 1 1 1 | 0.1
    Deliver 0    |  0 | 5 10 1 | 3 0 0 | 0.1=10
""")

# A pool can be closed for its owner.

tape("self-closed", SELF, """
    Do 0 3 10    |  0 | 6 10 0 | 1 0 0
    Run 0        |  0 | 0 10 0 | 1 0 0
    Do 0 1 11    |  0 | 2 11 0 | 1 0 0
    Reserve 0    |  0 | 2 11 0 | 1 0 0 | -             | 0 0 1 0 1
    Tick         |  0 | 2 11 0 | 1 1 0
    Expire 0     |  0 | 0 11 0 | 1 0 0
    Do 0 0 12    |  0 | 1 12 0 | 1 0 0
    Reserve 0    |  0 | 1 12 1 | 1 0 3 | 0.0           | 3 0 0 0 0
""")

# 0 sends to itself and to 1, then the end, where its timeout after 1 and its cancel lead too. 1 closes, opens,
# receives. 2 sends to 0.
OWN = named("model-own", model(0b111, [
    [internal(1), send(0b011, 0, 2, duration=1, timeout=2, cancel=2), end()],
    [close(1), open_(2), receive((0, 0, 2))],
    [internal(1), send(0b001, 1, 0, cancel=0)],
]))

# 1 has closed, so Expire is accepted: the own reservation is withdrawn before the end is entered.

tape("self-expire-end", OWN, """
    Run 1        |  0 | 1 0 0  | 1 0 0
    Do 0 0 10    |  0 | 1 10 0 | 1 0 0
    Reserve 0    |  0 | 1 10 1 | 1 0 1 | 0.0           | 1 0 2 0 1
    Tick         |  0 | 1 10 1 | 1 1 1 | 0.0
    Expire 0     |  0 | 2 10 0 | 2 0 0
    Do 0 0 11    | 12 | 2 10 0 | 2 0 0
""")

# With the reservation of 2 in the pool too: it stays and the end is proper; Deliver 2 starts 0 again.

tape("self-expire-end-waiting", OWN, """
    Run 1        |  0 | 1 0 0  | 1 0 0
    Do 2 0 20    |  0 | 1 20 0 | 1 0 0
    Reserve 2    |  0 | 1 20 0 | 1 0 1 | -             | 1 0 0 0 0
    Do 0 0 10    |  0 | 1 10 1 | 1 0 0 | 2.1
    Reserve 0    |  0 | 1 10 2 | 1 0 1 | 2.1 0.0       | 1 0 2 0 1
    Tick         |  0 | 1 10 2 | 1 1 1 | 2.1 0.0
    Expire 0     |  0 | 2 10 1 | 2 0 0 | 2.1
    Deliver 2    |  0 | 0 20 0 | 1 0 0
    Run 0        | 13 | 0 0 1  | 1 0 0 | 2.1=20
""")

# The same with Cancel. The own reservations go from both pools.

tape("self-cancel-end-waiting", OWN, """
    Do 2 0 20    |  0 | 1 20 0 | 1 0 0
    Reserve 2    |  0 | 1 20 0 | 1 0 1 | -             | 1 0 0 0 0
    Do 0 0 10    |  0 | 1 10 1 | 1 0 0 | 2.1
    Reserve 0    |  0 | 1 10 2 | 1 0 3 | 2.1 0.0       | 3 0 0 0 0
    Run 1        |  0 | 1 0 1  | 1 0 0 | 0.0
    Cancel 0     |  0 | 2 10 1 | 2 0 0 | 2.1
    Run 1        |  0 | 2 0 0  | 1 0 0
    Deliver 2    |  0 | 0 20 0 | 1 0 0
    Run 0        | 13 | 0 0 1  | 1 0 0 | 2.1=20
""")

# With a message of 2 in the pool: the own reservation is withdrawn, the message is left, mode 3.

tape("self-expire-end-message", OWN, """
    Run 1        |  0 | 1 0 0  | 1 0 0
    Do 2 0 20    |  0 | 1 20 0 | 1 0 0
    Reserve 2    |  0 | 1 20 0 | 1 0 1 | -             | 1 0 0 0 0
    Deliver 2    |  0 | 0 20 0 | 1 0 0
    Do 0 0 10    |  0 | 1 10 1 | 1 0 0 | 2.1=20
    Reserve 0    |  0 | 1 10 2 | 1 0 1 | 2.1=20 0.0    | 1 0 2 0 1
    Tick         |  0 | 1 10 2 | 1 1 1 | 2.1=20 0.0
    Expire 0     |  0 | 2 10 1 | 3 0 0 | 2.1=20
""")

# Deliver: the own message is left, behind the reservation of 2. Mode 3, and Deliver 2 is refused 17.

tape("self-deliver-end-waiting", OWN, """
    Do 2 0 20    |  0 | 1 20 0 | 1 0 0
    Reserve 2    |  0 | 1 20 0 | 1 0 1 | -             | 1 0 0 0 0
    Do 0 0 10    |  0 | 1 10 1 | 1 0 0 | 2.1
    Reserve 0    |  0 | 1 10 2 | 1 0 3 | 2.1 0.0       | 3 0 0 0 0
    Deliver 0    |  0 | 2 10 2 | 3 0 0 | 2.1 0.0=10
    Deliver 2    | 17 | 1 20 0 | 1 0 1
    Cancel 2     |  0 | 0 20 0 | 1 0 0
    Run 0        | 12 | 2 10 1 | 3 0 0 | 0.0=10
    Run 1        |  0 | 1 0 1  | 1 0 0 | 0.0=10
""")

# ---- Ends

# Each of 0 to 6 reaches its end 1 by another command: 0 Do; 1 Deliver; 2 Take; 3, 4, 5 Run (close, open,
# ask-empty); 6 Expire or Cancel. 7 sends to 0 to 6; it takes what 1 sends.
ENDS = named("model-ends", model(0b11111111, [
    [internal(1), end()],
    [send(0b10000000, 1, 1), end()],
    [receive((7, 0, 1)), end()],
    [close(1), end()],
    [open_(1), end()],
    [ask(1, 1), end()],
    [internal(0, duration=1, timeout=1, cancel=1), end()],
    [internal(1, 2), send(0b01111111, 0, 0), receive((1, 1, 0))],
]))

# "for an end the mode becomes 3 if a message is left in the own pool, else 2": for each command. No entry:

tape("end-no-entry", ENDS, """
    Do 0 0 5     |  0 | 1 5 0  | 2 0 0
    Reserve 1    |  0 | 0 0 0  | 1 0 128 | -           | 128 0 0 0 0
    Deliver 1    |  0 | 1 0 0  | 2 0 0
    Run 3        |  0 | 1 0 0  | 2 0 0
    Run 4        |  0 | 1 0 0  | 2 0 0
    Run 5        |  0 | 1 0 0  | 2 0 0
    Tick         |  0 | 1 5 0  | 2 0 0
    Expire 6     |  0 | 1 0 0  | 2 0 0
    # 3 has closed; the others give a place again
    Do 7 0 70    |  0 | 1 70 1 | 1 0 0   | 1.1=0
    Reserve 7    |  0 | 1 70 1 | 1 0 119 | 1.1=0       | 119 0 8 0 1
    Cancel 7     | 18 | 1 70 1 | 1 0 119 | 1.1=0
    Deliver 7    | 16 | 1 70 1 | 1 0 119 | 1.1=0
    Take 2 0     | 15 | 0 0 1  | 1 1 0   | 7.0
""")

# Take has removed the only entry when the end is entered; Cancel leaves the message of another.

tape("end-take-cancel", ENDS, """
    Do 7 0 70    |  0 | 1 70 0 | 1 0 0
    Reserve 7    |  0 | 1 70 0 | 1 0 127 | -           | 127 0 0 0 0
    Deliver 7    |  0 | 0 70 0 | 1 0 0
    Take 2 0     |  0 | 1 70 0 | 2 0 0
    Cancel 6     |  0 | 1 0 1  | 3 0 0   | 7.0=70
""")

# Messages:

tape("end-messages", ENDS, """
    Do 7 0 70    |  0 | 1 70 0 | 1 0 0
    Reserve 7    |  0 | 1 70 0 | 1 0 127 | -           | 127 0 0 0 0
    Deliver 7    |  0 | 0 70 0 | 1 0 0
    Do 7 0 71    |  0 | 1 71 0 | 1 0 0
    Reserve 7    |  0 | 1 71 0 | 1 0 127 | -           | 127 0 0 0 0
    Deliver 7    |  0 | 0 71 0 | 1 0 0
    Do 0 0 5     |  0 | 1 5 2  | 3 0 0   | 7.0=70 7.0=71
    Reserve 1    |  0 | 0 0 2  | 1 0 128 | 7.0=70 7.0=71 | 128 0 0 0 0
    Deliver 1    |  0 | 1 0 2  | 3 0 0   | 7.0=70 7.0=71
    Take 2 0     |  0 | 1 70 1 | 3 0 0   | 7.0=71
    Run 3        |  0 | 1 0 2  | 3 0 0   | 7.0=70 7.0=71
    Run 4        |  0 | 1 0 2  | 3 0 0   | 7.0=70 7.0=71
    Run 5        |  0 | 1 0 2  | 3 0 0   | 7.0=70 7.0=71
    Tick         |  0 | 1 5 2  | 3 0 0   | 7.0=70 7.0=71
    Expire 6     |  0 | 1 0 2  | 3 0 0   | 7.0=70 7.0=71
    Run 7        | 13 | 0 71 1 | 1 1 0   | 1.1=0
    # "ended improperly, else closed": 3 has closed too
    Do 7 0 72    |  0 | 1 72 1 | 1 0 0   | 1.1=0
    Reserve 7    |  0 | 1 72 1 | 1 0 0   | 1.1=0       | 0 127 0 0 7
""")

# Reservations alone: proper for each command. Deliver starts them all again at their initial state, with word 0; 3
# has closed, which "stops no Deliver".

tape("end-reservations", ENDS, """
    Do 7 0 70    |  0 | 1 70 0 | 1 0 0
    Reserve 7    |  0 | 1 70 0 | 1 0 127 | -           | 127 0 0 0 0
    Do 0 0 5     |  0 | 1 5 1  | 2 0 0   | 7.0
    Reserve 1    |  0 | 0 0 1  | 1 0 128 | 7.0         | 128 0 0 0 0
    Deliver 1    |  0 | 1 0 1  | 2 0 0   | 7.0
    Run 3        |  0 | 1 0 1  | 2 0 0   | 7.0
    Run 4        |  0 | 1 0 1  | 2 0 0   | 7.0
    Run 5        |  0 | 1 0 1  | 2 0 0   | 7.0
    Cancel 6     |  0 | 1 0 1  | 2 0 0   | 7.0
    Take 2 0     | 15 | 0 0 1  | 1 0 0   | 7.0
    Reserve 7    |  0 | 1 70 1 | 1 0 127 | 1.1=0       | 0 0 0 0 0
    Deliver 7    |  0 | 0 70 1 | 1 0 0   | 1.1=0
    Run 0        | 13 | 0 0 1  | 1 0 0   | 7.0=70
    Run 1        | 13 | 0 0 1  | 1 0 0   | 7.0=70
    Do 3 0 0     | 13 | 0 0 1  | 1 0 0   | 7.0=70
    Do 4 0 0     | 13 | 0 0 1  | 1 0 0   | 7.0=70
    Do 5 0 0     | 13 | 0 0 1  | 1 0 0   | 7.0=70
    Run 6        | 13 | 0 0 1  | 1 0 0   | 7.0=70
    Take 2 0     |  0 | 1 70 0 | 2 0 0
""")

# The same for Expire.

tape("end-reservation-expire", ENDS, """
    Do 7 0 70    |  0 | 1 70 0 | 1 0 0
    Reserve 7    |  0 | 1 70 0 | 1 0 127 | -           | 127 0 0 0 0
    Tick         |  0 | 0 0 1  | 1 1 0   | 7.0
    Expire 6     |  0 | 1 0 1  | 2 0 0   | 7.0
    Deliver 7    |  0 | 0 70 0 | 1 0 0
    Expire 6     | 19 | 0 0 1  | 1 0 0   | 7.0=70
""")

# A message and a reservation: improper, and Deliver is refused 17. Only Take has removed the message when the end is
# entered: 2 ends properly, and a refused Deliver does not start it.

tape("end-both", ENDS, """
    Do 7 0 70    |  0 | 1 70 0 | 1 0 0
    Reserve 7    |  0 | 1 70 0 | 1 0 127 | -           | 127 0 0 0 0
    Deliver 7    |  0 | 0 70 0 | 1 0 0
    Do 7 0 71    |  0 | 1 71 0 | 1 0 0
    Reserve 7    |  0 | 1 71 0 | 1 0 127 | -           | 127 0 0 0 0
    Take 2 0     |  0 | 1 70 1 | 2 0 0   | 7.0
    Do 0 0 5     |  0 | 1 5 2  | 3 0 0   | 7.0=70 7.0
    Reserve 1    |  0 | 0 0 2  | 1 0 128 | 7.0=70 7.0  | 128 0 0 0 0
    Deliver 1    |  0 | 1 0 2  | 3 0 0   | 7.0=70 7.0
    Run 3        |  0 | 1 0 2  | 3 0 0   | 7.0=70 7.0
    Run 4        |  0 | 1 0 2  | 3 0 0   | 7.0=70 7.0
    Run 5        |  0 | 1 0 2  | 3 0 0   | 7.0=70 7.0
    Cancel 6     |  0 | 1 0 2  | 3 0 0   | 7.0=70 7.0
    Deliver 7    | 17 | 1 71 1 | 1 0 127 | 1.1=0
    Reserve 7    |  0 | 1 71 1 | 1 0 127 | 1.1=0       | 0 0 0 0 0
    Deliver 7    | 17 | 1 71 1 | 1 0 127 | 1.1=0
    Take 2 0     | 12 | 1 70 1 | 2 0 0   | 7.0
    Do 0 0 6     | 12 | 1 5 2  | 3 0 0   | 7.0=70 7.0
""")

# A word 0 that was delivered is a message all the same: Take hands it over.

tape("word-0", ENDS, """
    Reserve 1    |  0 | 0 0 0  | 1 0 128 | -           | 128 0 0 0 0
    Do 7 1 70    |  0 | 2 70 1 | 1 0 0   | 1.1
    Take 7 0     | 15 | 2 70 1 | 1 0 0   | 1.1
    Deliver 1    |  0 | 1 0 0  | 2 0 0
    Take 7 0     |  0 | 0 0 0  | 1 0 0
""")

# Left in the pool at the end it makes the end improper.

tape("end-word-0", ENDS, """
    Do 7 0 0     |  0 | 1 0 0  | 1 0 0
    Reserve 7    |  0 | 1 0 0  | 1 0 127 | -           | 127 0 0 0 0
    Deliver 7    |  0 | 0 0 0  | 1 0 0
    Do 0 0 5     |  0 | 1 5 1  | 3 0 0   | 7.0=0
    Take 2 0     |  0 | 1 0 0  | 2 0 0
    Cancel 6     |  0 | 1 0 1  | 3 0 0   | 7.0=0
""")

# ---- Who ended improperly holds a message

# 10: a configuration in mode 3 without a message is not valid, for each command. 0 has ended with nothing in its pool:

tape("improper-no-entry", ENDS, """
    Do 0 0 5            |  0 | 1 5 0  | 2 0 0
    improper Do 0 0 6   | 10 | 1 5 0  | 3 0 0 | valid 0 | again 12 1 5 0
    improper Reserve 0  | 10 | 1 5 0  | 3 0 0 | valid 0 | again 12 1 5 0
    improper Deliver 0  | 10 | 1 5 0  | 3 0 0 | valid 0 | again 12 1 5 0
    improper Take 0 0   | 10 | 1 5 0  | 3 0 0 | valid 0 | again 12 1 5 0
    improper Run 0      | 10 | 1 5 0  | 3 0 0 | valid 0 | again 12 1 5 0
    improper Expire 0   | 10 | 1 5 0  | 3 0 0 | valid 0 | again 12 1 5 0
    improper Cancel 0   | 10 | 1 5 0  | 3 0 0 | valid 0 | again 12 1 5 0
    improper Tick       | 10 | 1 5 0  | 3 0 0 | valid 0 | again 0 1 5 0
    Do 0 0 6            | 12 | 1 5 0  | 2 0 0
""")

# 2 has ended with two reservations in its pool, which are no messages. From the configuration before Deliver starts it.

tape("improper-reservations", START, """
    Do 0 0 10           |  0 | 1 10 0 | 1 0 0
    Reserve 0           |  0 | 1 10 0 | 1 0 14 | -       | 14 0 0 0 0
    Do 4 0 40           |  0 | 1 40 0 | 1 0 0
    Reserve 4           |  0 | 1 40 0 | 1 0 4  | -       | 4 0 0 0 0
    Do 2 0 20           |  0 | 0 20 2 | 2 0 0  | 0.0 4.0
    improper Do 2 0 21  | 10 | 0 20 2 | 3 0 0  | 0.0 4.0 | valid 0 | again 12 0 20 2
    improper Cancel 2   | 10 | 0 20 2 | 3 0 0  | 0.0 4.0 | valid 0 | again 12 0 20 2
    Deliver 4           |  0 | 0 40 0 | 1 0 0
    Run 2               | 13 | 1 0 2  | 1 0 0  | 0.0 4.0=40
""")

# 0 has ended with a message in its pool, 3 with a reservation too: mode 3 is what they have. 12, and Tick is accepted.

tape("improper-message", ENDS, """
    Do 7 0 70           |  0 | 1 70 0 | 1 0 0
    Reserve 7           |  0 | 1 70 0 | 1 0 127 | -      | 127 0 0 0 0
    Deliver 7           |  0 | 0 70 0 | 1 0 0
    Do 0 0 5            |  0 | 1 5 1  | 3 0 0   | 7.0=70
    improper Do 0 0 6   | 12 | 1 5 1  | 3 0 0   | 7.0=70 | valid 1
    improper Deliver 0  | 12 | 1 5 1  | 3 0 0   | 7.0=70 | valid 1
    improper Tick       |  0 | 1 5 1  | 3 0 0   | 7.0=70 | valid 1
    Do 7 0 71           |  0 | 1 71 0 | 1 0 0
    Reserve 7           |  0 | 1 71 0 | 1 0 126 | -      | 126 1 0 0 1
    Run 3               |  0 | 1 0 2  | 3 0 0   | 7.0=70 7.0
    improper Run 3      | 12 | 1 0 2  | 3 0 0   | 7.0=70 7.0 | valid 1
""")

# A message is not all: "ended always is" at an end. 0 and 1 run and hold one. Here `improper Tick` is of subject 0.

tape("improper-not-at-end", ENDS, """
    Do 7 0 70           |  0 | 1 70 0 | 1 0 0
    Reserve 7           |  0 | 1 70 0 | 1 0 127 | -      | 127 0 0 0 0
    Deliver 7           |  0 | 0 70 0 | 1 0 0
    improper Run 0      | 10 | 0 0 1  | 3 0 0   | 7.0=70 | valid 0 | again 13 0 0 1
    improper Deliver 1  | 10 | 0 0 1  | 3 0 0   | 7.0=70 | valid 0 | again 16 0 0 1
    improper Tick       | 10 | 0 0 1  | 3 0 0   | 7.0=70 | valid 0 | again 0 0 0 1
    Run 0               | 13 | 0 0 1  | 1 0 0   | 7.0=70
""")

# 2 sleeps; there is no 3, and "subjects from n up .. are all zero": 10 before 11.

tape("improper-asleep", KINDS, """
    improper Do 2 0 6   | 10 | 0 0 0  | 3 0 0 | valid 0 | again 12 0 0 0
    improper Do 3 0 6   | 10 | 0 0 0  | -     | valid 0 | again 11 0 0 0
    Do 2 0 6            | 12 | 0 0 0  | 0 0 0
    Do 3 0 6            | 11 | 0 0 0  | -
""")

# ---- Sixteen subjects

# Only 0 starts; it sends type 31 to all, itself among them. The others receive.
SIXTEEN = named("model-sixteen", model(
    0b1,
    [[internal(1), send(0xFFFF, 31, 2, cancel=0), receive((0, 31, 0))]] + [[receive((0, 31, 0))]] * 15,
))

# "1 to 16 subjects"; 11: "subject is n or more".

tape("sixteen", SIXTEEN, """
    Take 15 0           | 12 | 0 0 0          | 0 0 0
    Do 0 0 4294967295   |  0 | 1 4294967295 0 | 1 0 0
    Reserve 0           |  0 | 1 4294967295 1 | 1 0 65535 | 0.31 | 65535 0 0 0 0
    Take 15 0           | 12 | 0 0 1          | 0 0 0 | 0.31
    Deliver 0           |  0 | 2 4294967295 1 | 1 0 0 | 0.31=4294967295
    Take 15 0           |  0 | 0 4294967295 0 | 1 0 0
    Take 15 0           | 15 | 0 4294967295 0 | 1 0 0
    Run 8               | 13 | 0 0 1          | 1 0 0 | 0.31=4294967295
    Do 16 0 1           | 11 | 0 0 0          | -
    Reserve 16          | 11 | 0 0 0          | -
    Deliver 16          | 11 | 0 0 0          | -
    Take 16 0           | 11 | 0 0 0          | -
    Run 16              | 11 | 0 0 0          | -
    Expire 16           | 11 | 0 0 0          | -
    Cancel 16           | 11 | 0 0 0          | -
    Do 255 0 1          | 11 | 0 0 0          | -
    Take 255 0          | 11 | 0 0 0          | -
    value Take 16 0     | 11 | 0 0 0          | -
    value Expire 255    | 11 | 0 0 0          | -
    Raw 9 16 0 0        |  9 | 0 0 0          | -
    Raw 9 15 0 0        |  9 | 0 4294967295 0 | 1 0 0
    config Take 16 0    | 10 | 0 0 0          | -     | again 11 0 0 0
    config Run 15       | 10 | 0 4294967295 0 | 1 0 0 | again 13 0 4294967295 0
    model Take 15 0     |  8 | 0 0 0          | -     | again 15 0 4294967295 0
    Take 0 0            |  0 | 0 4294967295 0 | 1 0 0
""")

# "withdrawn from all pools": from all sixteen.

tape("sixteen-cancel", SIXTEEN, """
    Do 0 0 10    |  0 | 1 10 0 | 1 0 0
    Reserve 0    |  0 | 1 10 1 | 1 0 65535 | 0.31      | 65535 0 0 0 0
    Cancel 0     |  0 | 0 10 0 | 1 0 0
    Take 1 0     | 12 | 0 0 0  | 0 0 0
    Take 8 0     | 12 | 0 0 0  | 0 0 0
    Take 15 0    | 12 | 0 0 0  | 0 0 0
    Tick         |  0 | 0 10 0 | 1 1 0
""")

# Sixteen senders to 15, which is one of them: 16 reservations fill the pool.
CROWD = named("model-crowd", model(0xFFFF, [[internal(1), send(0x8000, 0, 0, cancel=0)]] * 16))

# 0 to 14 reserve, one after the other.
FIFTEEN = "".join(f"""
    Do {s} 0 {s}  |  0 | 1 {s} 0 | 1 0 0
    Reserve {s}   |  0 | 1 {s} 0 | 1 0 32768 | - | 32768 0 0 0 0""" for s in range(15)).lstrip("\n")

# "16 entries a pool": all reservations, then some messages; the order stays.

tape("crowd", CROWD, FIFTEEN + """
    Do 15 0 15    |  0 | 1 15 15 | 1 0 0     | 0.0 1.0 2.0 3.0 4.0 5.0 6.0 7.0 8.0 9.0 10.0 11.0 12.0 13.0 14.0
    Reserve 15    |  0 | 1 15 16 | 1 0 32768 | 0.0 1.0 2.0 3.0 4.0 5.0 6.0 7.0 8.0 9.0 10.0 11.0 12.0 13.0 \
        14.0 15.0 | 32768 0 0 0 0
    Deliver 0     |  0 | 0 0 0   | 1 0 0
    Do 0 0 99     |  0 | 1 99 0  | 1 0 0
    Reserve 0     |  0 | 1 99 0  | 1 0 0     | - | 0 0 0 32768 1
    Cancel 7      |  0 | 0 7 0   | 1 0 0
    Reserve 0     |  0 | 1 99 0  | 1 0 32768 | - | 32768 0 0 0 0
    Deliver 15    |  0 | 0 15 16 | 1 0 0     | 0.0=0 1.0 2.0 3.0 4.0 5.0 6.0 8.0 9.0 10.0 11.0 12.0 13.0 \
        14.0 15.0=15 0.0
    Deliver 14    |  0 | 0 14 0  | 1 0 0
    Cancel 1      |  0 | 0 1 0   | 1 0 0
    Cancel 0      |  0 | 0 99 0  | 1 0 0
    Take 15 0     | 13 | 0 15 14 | 1 0 0     | 0.0=0 2.0 3.0 4.0 5.0 6.0 8.0 9.0 10.0 11.0 12.0 13.0 14.0=14 15.0=15
""")

# The same, but 15 can send to itself (exit 0) or end (exit 1).
CROWD_END = named("model-crowd-end", model(
    0xFFFF,
    [[internal(1), send(0x8000, 0, 0, cancel=0)]] * 15 + [[internal(1, 2), send(0x8000, 1, 0), end()]],
))

# Fifteen reservations and no message: 15 ends properly, and the Deliver that fills the last one starts it. Then the
# message is the last entry: improper.

tape("crowd-end-waiting", CROWD_END, FIFTEEN + """
    Do 15 1 99    |  0 | 2 99 15 | 2 0 0     | 0.0 1.0 2.0 3.0 4.0 5.0 6.0 7.0 8.0 9.0 10.0 11.0 12.0 13.0 14.0
    Deliver 14    |  0 | 0 14 0  | 1 0 0
    Run 15        | 13 | 0 0 15  | 1 0 0     | 0.0 1.0 2.0 3.0 4.0 5.0 6.0 7.0 8.0 9.0 10.0 11.0 12.0 13.0 14.0=14
    Do 15 1 98    |  0 | 2 98 15 | 3 0 0     | 0.0 1.0 2.0 3.0 4.0 5.0 6.0 7.0 8.0 9.0 10.0 11.0 12.0 13.0 14.0=14
    Deliver 0     | 17 | 1 0 0   | 1 0 32768
""")

# Sixteen entries, of which the last is 15's own message: improper.

tape("crowd-end-full", CROWD_END, FIFTEEN + """
    Do 15 0 99    |  0 | 1 99 15 | 1 0 0     | 0.0 1.0 2.0 3.0 4.0 5.0 6.0 7.0 8.0 9.0 10.0 11.0 12.0 13.0 14.0
    Reserve 15    |  0 | 1 99 16 | 1 0 32768 | 0.0 1.0 2.0 3.0 4.0 5.0 6.0 7.0 8.0 9.0 10.0 11.0 12.0 13.0 \
        14.0 15.1 | 32768 0 0 0 0
    Deliver 15    |  0 | 0 99 16 | 1 0 0     | 0.0 1.0 2.0 3.0 4.0 5.0 6.0 7.0 8.0 9.0 10.0 11.0 12.0 13.0 \
        14.0 15.1=99
    Do 15 1 98    |  0 | 2 98 16 | 3 0 0     | 0.0 1.0 2.0 3.0 4.0 5.0 6.0 7.0 8.0 9.0 10.0 11.0 12.0 13.0 \
        14.0 15.1=99
    Deliver 7     | 17 | 1 7 0   | 1 0 32768
    Cancel 7      |  0 | 0 7 0   | 1 0 0
    Do 7 0 77     |  0 | 1 77 0  | 1 0 0
    Reserve 7     |  0 | 1 77 0  | 1 0 0     | - | 0 32768 0 0 1
    Run 15        | 12 | 2 98 15 | 3 0 0     | 0.0 1.0 2.0 3.0 4.0 5.0 6.0 8.0 9.0 10.0 11.0 12.0 13.0 14.0 15.1=99
""")

# ---- A small orchard: two probes and a scheduler

# The scheduler takes readings in 0; where it is too dry it closes its queue in 2, waters in 3, and throws away in 6
# what was measured before, until 4 finds no entry; then 5 opens the queue again.
ORCHARD = named("model-orchard", model(0b111, [
    [internal(1), send(0b100, 0, 0, cancel=0)],
    [internal(1), send(0b100, 0, 0, cancel=0)],
    [
        receive((0, 0, 1), (1, 0, 1)),
        internal(2, 0),
        close(3),
        internal(4),
        ask(5, 6),
        open_(0),
        receive((0, 0, 4), (1, 0, 4)),
    ],
], [(2, 0, ANY, 2), (2, 1, ANY, 2)]))

# Run in all three kinds, and 13 in another. A place given before the close is still good; a reservation is an entry.

tape("orchard-day", ORCHARD, """
    Do 0 0 35    |  0 | 1 35 0 | 1 0 0
    Reserve 0    |  0 | 1 35 0 | 1 0 4 | -      | 4 0 0 0 0
    Deliver 0    |  0 | 0 35 0 | 1 0 0
    Do 1 0 80    |  0 | 1 80 0 | 1 0 0
    Reserve 1    |  0 | 1 80 0 | 1 0 4 | -      | 4 0 0 0 0
    Take 2 0     |  0 | 1 35 1 | 1 0 0 | 1.0
    Do 2 0 35    |  0 | 2 35 1 | 1 0 0 | 1.0
    # close
    Run 2        |  0 | 3 35 1 | 1 0 0 | 1.0
    Do 0 0 36    |  0 | 1 36 0 | 1 0 0
    Reserve 0    |  0 | 1 36 0 | 1 0 0 | -      | 0 0 4 0 1
    Do 2 0 12    |  0 | 4 12 1 | 1 0 0 | 1.0
    # ask-empty, with a reservation in the pool
    Run 2        |  0 | 6 12 1 | 1 0 0 | 1.0
    Take 2 1     | 15 | 6 12 1 | 1 0 0 | 1.0
    Deliver 1    |  0 | 0 80 0 | 1 0 0
    Take 2 1     |  0 | 4 80 0 | 1 0 0
    # ask-empty, with no entry in the pool
    Run 2        |  0 | 5 80 0 | 1 0 0
    Reserve 0    |  0 | 1 36 0 | 1 0 0 | -      | 0 0 4 0 1
    # open
    Run 2        |  0 | 0 80 0 | 1 0 0
    Reserve 0    |  0 | 1 36 0 | 1 0 4 | -      | 4 0 0 0 0
    Deliver 0    |  0 | 0 36 0 | 1 0 0
    Run 2        | 13 | 0 80 1 | 1 0 0 | 0.0=36
    Take 2 0     |  0 | 1 36 0 | 1 0 0
""")

# A whole tape is refused with 8, then 10, then 6, though its commands, given one by one, are accepted: nothing is run
# and nothing is written.

for name, whole, refusal in [
    ("orchard-model", "model", 8),
    ("orchard-config", "config", 10),
    ("orchard-short", "short", 6),
    ("orchard-model-first", "model config short", 8),
    ("orchard-config-first", "config short", 10),
]:
    tape(name, ORCHARD, """
    Do 0 0 35    |  0 | 1 35 0 | 1 0 0
    Reserve 0    |  0 | 1 35 0 | 1 0 4 | -      | 4 0 0 0 0
    Deliver 0    |  0 | 0 35 0 | 1 0 0
    Take 2 0     |  0 | 1 35 0 | 1 0 0
""", whole, refusal)

# ---- The files

def main():
    crate = pathlib.Path(__file__).resolve().parent.parent / "crates" / "step_cases"
    data = crate / "data"
    data.mkdir(parents=True, exist_ok=True)
    for old in data.iterdir():
        old.unlink()
    names, lines = [], []
    for name, model in MODELS.items():
        (data / name).write_bytes(file_of(model, ()))
    for name, (model, rows, last) in TAPES.items():
        assert len(rows) <= 512, "more than the program has room for"
        (data / name).write_bytes(b"".join(row.command for row in rows))
        names += [model, name]
        lines += [name] + [line for row in rows for line in row.lines] + [last]
    (data / "list").write_text("".join(f"{name}\n" for name in names))
    (crate / "stdout").write_text("".join(f"{line}\n" for line in lines))


if __name__ == "__main__":
    main()
