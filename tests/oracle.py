#!/usr/bin/env python3
"""What crates/cases must write, worked out from documents 01 and 02 alone.

    tests/oracle.py            prints it
    tests/oracle.py --check    compares it with crates/cases/stdout; the last line is 'N passed, M failed', where N is the
                               lines that are equal; the status is 0 exactly when M is 0

The cases are the lines of crates/cases/stdin. Everything else is done here by another road than in crates/: a set is a set of
configurations, a waiting line is written out, and what is plausible is searched for by single moves. Three things are held
against each other: feeding, a search for all admissible runs of the model from its start, and the results that document 01 states.
"""

import difflib
import re
import sys
from dataclasses import dataclass, field, replace
from pathlib import Path

CASES = Path(__file__).resolve().parent.parent / "crates" / "cases"

# The limits of document 01.
MOST_STATES = 64
MOST_SYMBOLS = 16
MOST_WAITING = 32
MOST_LOSSES = 8
MOST_EVENTS = 1048576
NOT_ALLOWED = 255

# A session's places for the bytes of its rows, and for its newest inputs.
ROW_PLACES = 2048
HELD_PLACES = 32

TABLE_T = [1, 255, 255, 255, 0, 0]


# The model


@dataclass(frozen=True)
class Box:
    """A table and its bounds."""

    states: int
    inputs: int
    outputs: int
    rows: tuple
    waiting: int  # B
    losses: int  # c

    def entry(self, state, column):
        """The next state in a column of a state's row, or None where it is not allowed."""
        to = self.rows[state * (self.inputs + self.outputs) + column]
        return None if to == NOT_ALLOWED else to

    def admissible(self, line, run):
        """At most B inputs wait, and fewer than c were lost since the last take."""
        return len(line) <= self.waiting and run < self.losses

    def arrive(self, place, a):
        """Input a joins the end of the waiting line."""
        state, line, run = place
        return [(state, line + (a,), run)] if self.admissible(line + (a,), run) else []

    def take(self, place):
        """The oldest waiting input leaves the line and the box follows its entry."""
        state, line, run = place
        if not line:
            return []
        to = self.entry(state, line[0])
        return [(to, line[1:], 0)] if to is not None and self.admissible(line[1:], 0) else []

    def lose(self, place):
        """The oldest waiting input leaves and the state stays."""
        state, line, run = place
        if not line:
            return []
        return [(state, line[1:], run + 1)] if self.admissible(line[1:], run + 1) else []

    def output(self, place, a):
        """The box follows its entry for output a."""
        state, line, run = place
        to = self.entry(state, self.inputs + a)
        return [(to, line, run)] if to is not None and self.admissible(line, run) else []

    def show(self, place, byte):
        """The one move that the tap sees as this event byte."""
        return self.arrive(place, byte) if byte < 128 else self.output(place, byte - 128)


def configuration(place):
    state, line, run = place
    return (state, len(line), run)


def plausible(box, trace):
    """For each number of events from 0 on, the last configurations of all admissible runs that show so much of the trace."""
    start = (0, (0, (), 0))
    found = {start}
    todo = [start]
    while todo:
        shown, place = todo.pop()
        following = [(shown, p) for p in box.take(place) + box.lose(place)]
        if shown < len(trace):
            following += [(shown + 1, p) for p in box.show(place, trace[shown])]
        for node in following:
            if node not in found:
                found.add(node)
                todo.append(node)
    sets = [set() for _ in range(len(trace) + 1)]
    for shown, place in found:
        sets[shown].add(configuration(place))
    return sets


def settled(box, places):
    """The configurations reached from these places by any number of takes and losses."""
    found = set(places)
    todo = list(found)
    while todo:
        place = todo.pop()
        for p in box.take(place) + box.lose(place):
            if p not in found:
                found.add(p)
                todo.append(p)
    return {configuration(p) for p in found}


# Openings and sessions


@dataclass(frozen=True)
class Session:
    states: int = 0
    inputs: int = 0
    outputs: int = 0
    rows: tuple = (0,) * ROW_PLACES
    waiting: int = 0
    losses: int = 0
    set: frozenset = frozenset()
    held: tuple = (0,) * HELD_PLACES
    events: int = 0
    arrived: int = 0
    flag: object = None

    def box(self):
        used = self.states * (self.inputs + self.outputs)
        return Box(self.states, self.inputs, self.outputs, self.rows[:used], self.waiting, self.losses)

    def holds(self):
        """How many inputs are held: B of them, or all seen if fewer."""
        return min(self.waiting, self.arrived)


def first_wrong_entry(states, width, rows):
    """Row and column of the first entry that is neither 255 nor below states, reading row by row."""
    for row in range(states):
        for column in range(width):
            entry = rows[row * width + column]
            if entry != NOT_ALLOWED and entry >= states:
                return (row, column)
    return None


def tested(states, inputs, outputs, rows, waiting, losses):
    """The refusal of an opening, number and places, or None. The order is 2, 3, 1, 4, 5, 6."""
    if not 1 <= states <= MOST_STATES:
        return (2, states)
    for count in (inputs, outputs):
        if not 1 <= count <= MOST_SYMBOLS:
            return (3, count)
    if len(rows) != states * (inputs + outputs):
        return (1, len(rows))
    wrong = first_wrong_entry(states, inputs + outputs, rows)
    if wrong is not None:
        return (4,) + wrong
    if not 1 <= waiting <= MOST_WAITING:
        return (5, waiting)
    if not 1 <= losses <= MOST_LOSSES:
        return (6, losses)
    return None


def opened(states, inputs, outputs, rows, waiting, losses):
    """The refusal or None, and the session."""
    refusal = tested(states, inputs, outputs, rows, waiting, losses)
    if refusal is not None:
        return refusal, Session()
    padded = tuple(rows) + (0,) * (ROW_PLACES - len(rows))
    return None, Session(states, inputs, outputs, padded, waiting, losses, frozenset({(0, 0, 0)}))


def table_sound(s):
    used = s.states * (s.inputs + s.outputs)
    if tested(s.states, s.inputs, s.outputs, s.rows[:used], s.waiting, s.losses) is not None:
        return False
    return all(byte == 0 for byte in s.rows[used:])


def set_sound(s):
    return all(
        state < s.states and waiting <= s.waiting and waiting <= s.arrived and run < s.losses
        for state, waiting, run in s.set
    )


def held_sound(s):
    n = s.holds()
    return all(a < s.inputs for a in s.held[:n]) and all(byte == 0 for byte in s.held[n:])


def counts_sound(s):
    return s.arrived <= s.events <= MOST_EVENTS


def flag_sound(s):
    if s.flag is None:
        return bool(s.set)
    return not s.set and s.flag < s.events


def sound(s):
    return table_sound(s) and set_sound(s) and held_sound(s) and counts_sound(s) and flag_sound(s)


def valid(s, byte):
    return byte < s.inputs if byte < 128 else byte - 128 < s.outputs


def fed(s, byte):
    """The refusal or None, and the session. The order is 8, 9, 7."""
    if not sound(s):
        return (8, 0), s
    if s.events + 1 > MOST_EVENTS:
        return (9, s.events + 1), s
    if not valid(s, byte):
        return (7, s.events), s
    box = s.box()
    line = s.held[: s.holds()]
    shown = []
    for state, waiting, run in s.set:
        shown += box.show((state, line[len(line) - waiting :], run), byte)
    after = frozenset(settled(box, shown))
    newest, arrived = line, s.arrived
    if byte < 128:
        newest, arrived = (line + (byte,))[-s.waiting :], s.arrived + 1
    flag = s.events if s.flag is None and not after else s.flag
    held = newest + (0,) * (HELD_PLACES - len(newest))
    return None, replace(s, set=after, held=held, events=s.events + 1, arrived=arrived, flag=flag)


def run_refused(box_counts, rows, trace, room):
    """The refusal of a whole run, or None. The order is as opening, then 9, 7, 10."""
    states, inputs, outputs, waiting, losses = box_counts
    refusal = tested(states, inputs, outputs, rows, waiting, losses)
    if refusal is not None:
        return refusal
    if len(trace) > MOST_EVENTS:
        return (9, len(trace))
    for place, byte in enumerate(trace):
        if not valid(Session(inputs=inputs, outputs=outputs), byte):
            return (7, place)
    if room < 12 * len(trace):
        return (10, 12 * len(trace))
    return None


def twelve(members):
    """The bytes of a set: its states as a number of eight bytes, then least and most waiting, then least and most run."""
    if not members:
        return bytes(8) + b"\xff" * 4
    number = sum(1 << state for state in {state for state, _, _ in members})
    waiting = [w for _, w, _ in members]
    runs = [r for _, _, r in members]
    return number.to_bytes(8, "little") + bytes([min(waiting), max(waiting), min(runs), max(runs)])


def ran(box_counts, rows, trace, out):
    """The refusal or None, the flag, and the result buffer, of a whole run."""
    refusal = run_refused(box_counts, rows, trace, len(out))
    if refusal is not None:
        return refusal, None, out
    states, inputs, outputs, waiting, losses = box_counts
    sets = plausible(Box(states, inputs, outputs, tuple(rows), waiting, losses), trace)[1:]
    lines = b"".join(twelve(members) for members in sets)
    flags = [place for place, members in enumerate(sets) if not members]
    return None, flags[0] if flags else None, lines + out[len(lines) :]


def standard_entry(state, column):
    """The standard box's rule: e is the next poll number expected, p the polls taken and not yet reported."""
    e, p = state % 16, state // 16
    if column < 16:
        if p == 0 and column == (e - 1) % 16:
            return e + 16
        if column != e:
            return state
        return (e + 1) % 16 + 16 * (p + 1) if p < 3 else NOT_ALLOWED
    return e + 16 * (p - 1) if p > 0 and column - 16 == (e - p) % 16 else NOT_ALLOWED


def standard_rows():
    return [standard_entry(state, column) for state in range(64) for column in range(32)]


# The lines of a case


def refused(refusal):
    return " refused " + " ".join(str(n) for n in refusal)


def flag_text(flag):
    return " flag none" if flag is None else f" flag {flag}"


def set_text(s):
    members = sorted(s.set, key=lambda m: (m[1], m[2], m[0]))
    text = "".join(f" ({state},{waiting},{run})" for state, waiting, run in members) or " empty"
    return f"{text} events {s.events} inputs {s.arrived}" + flag_text(s.flag)


def held_text(s):
    return " held" + "".join(f" {byte}" for byte in s.held[: s.holds()])


def view_text(s):
    text = f" {s.states} {s.inputs} {s.outputs} {s.waiting} {s.losses}" + set_text(s) + held_text(s)
    return text + (" sound" if sound(s) else "") + (" zeros" if s == Session() else "")


def digest_text(s):
    text = f" configurations {len(s.set)}"
    for name, k in (("states", 0), ("waiting", 1), ("runs", 2)):
        if s.set:
            text += f" {name} {min(m[k] for m in s.set)} to {max(m[k] for m in s.set)}"
    return text + flag_text(s.flag) + held_text(s)


NUMBERS = {
    "states": "states",
    "inputs": "inputs",
    "outputs": "outputs",
    "B": "waiting",
    "c": "losses",
    "events": "events",
    "arrived": "arrived",
    "flag": "flag",
}


def put(values, at, value):
    return values[:at] + (value,) + values[at + 1 :]


def changed(s, words):
    """The session with one field changed, as the words of a line say."""
    first, *rest = words.split(" ", 1)
    if first in NUMBERS:
        return replace(s, **{NUMBERS[first]: int(rest[0])})
    if words == "unflagged":
        return replace(s, flag=None)
    if words == "none":
        return replace(s, set=frozenset())
    match = re.fullmatch(r"(row|held) byte (\d+) is (\d+)", words)
    if match:
        name = {"row": "rows", "held": "held"}[match[1]]
        return replace(s, **{name: put(getattr(s, name), int(match[2]), int(match[3]))})
    match = re.fullmatch(r"with \((\d+),(\d+),(\d+)\)", words)
    return replace(s, set=s.set | {tuple(int(n) for n in match.groups())})


def event_bytes(words):
    """The bytes of events as a listing writes them."""
    return [int(w[1:]) + {"i": 0, "o": 128}[w[0]] for w in words.split()]


def marked(rows, words):
    """The rows with the bytes changed that the words name."""
    rows = list(rows)
    for at, byte in re.findall(r" byte (\d+) is (\d+)", words):
        rows[int(at)] = int(byte)
    return rows


# What document 01 states of its small cases, by bounds and trace.
STATED = {
    ("P1", 2, 1, ""): ({(0, 0, 0)}, None),
    ("P2", 2, 1, "i0"): ({(0, 1, 0), (1, 0, 0)}, None),
    ("P3", 2, 1, "i0 o0"): ({(0, 0, 0)}, None),
    ("P4", 2, 1, "o0"): (set(), 0),
    ("P5", 2, 1, "i0 i0"): ({(0, 2, 0), (1, 1, 0)}, None),
    ("P6", 2, 1, "i0 i0 i0"): ({(1, 2, 0)}, None),
    ("P6", 2, 1, "i0 i0 i0 i0"): (set(), 3),
    ("P7", 2, 1, "i0 i0 o0"): ({(0, 1, 0), (1, 0, 0)}, None),
    ("P8", 1, 2, "i0"): ({(0, 1, 0), (1, 0, 0), (0, 0, 1)}, None),
    ("P9", 1, 2, "i0 i0"): ({(1, 1, 0), (0, 1, 1), (1, 0, 1), (1, 0, 0)}, None),
    ("P10", 1, 2, "i0 i0 o0 o0"): ({(0, 0, 0)}, None),
    ("P10", 1, 2, "i0 i0 o0 o0 o0"): (set(), 4),
}

# Of openings of T: the number of the refusal, by B and c.
STATED_OPENINGS = {(32, 8): None, (33, 8): 5, (32, 9): 6, (32, 0): 6, (0, 0): 5}

# Of the standard box's entries: row, column, entry.
STATED_ENTRIES = [(0, 0, 17), (17, 16, 1), (1, 0, 17), (48, 29, 32), (48, 0, 255), (48, 5, 48)]


@dataclass
class Bench:
    """The session that the lines work on, and what it was fed since its opening, where that is all that befell it."""

    session: Session = field(default_factory=Session)
    trace: list = field(default_factory=list)
    sets: list = field(default_factory=list)
    opened: bool = False
    stated: set = field(default_factory=set)

    def begin(self, session, at_opening):
        self.finish()
        self.session = session
        self.trace, self.sets, self.opened = [], [session.set], at_opening

    def feed(self, byte):
        refusal, self.session = fed(self.session, byte)
        if refusal is not None:
            return refused(refusal)
        self.trace.append(byte)
        self.sets.append(self.session.set)
        return ""

    def finish(self):
        """Holds feeding against the runs of the model."""
        if not self.opened:
            return
        sets = plausible(self.session.box(), self.trace)
        assert sets == self.sets, f"feeding and the runs of the model differ on {self.trace}"
        flags = [i - 1 for i, members in enumerate(sets) if not members]
        assert self.session.flag == (flags[0] if flags else None)

    def line(self, line):
        match = re.fullmatch(r"open( [A-Za-z]+)? states (\d+) inputs (\d+) outputs (\d+) rows (\d+) B (\d+) c (\d+)(( byte \d+ is \d+)*)", line)
        if match:
            states, inputs, outputs, length, waiting, losses = (int(n) for n in match.groups()[1:7])
            rows = marked([NOT_ALLOWED] * length, match[8])
            assert match[1] != " T" or rows == TABLE_T
            refusal, session = opened(states, inputs, outputs, rows, waiting, losses)
            self.begin(session, refusal is None)
            return refused(refusal) if refusal else " opened"
        match = re.fullmatch(r"standard box B (\d+) c (\d+)( byte \d+ is \d+)?", line)
        if match:
            rows = marked(standard_rows(), match[3] or "")
            refusal, session = opened(64, 16, 16, rows, int(match[1]), int(match[2]))
            self.begin(session, refusal is None)
            return refused(refusal) if refusal else " opened"
        match = re.fullmatch(r"T B (\d+) c (\d+)", line)
        if match:
            bounds = (int(match[1]), int(match[2]))
            refusal, session = opened(2, 1, 2, TABLE_T, *bounds)
            self.begin(session, refusal is None)
            if bounds in STATED_OPENINGS:
                assert (refusal and refusal[0]) == STATED_OPENINGS[bounds], line
                self.stated.add(bounds)
            return refused(refusal) if refusal else " opened"
        match = re.fullmatch(r"(P\d+) B (\d+) c (\d+)(( [io]\d+)*)", line)
        if match:
            waiting, losses, words = int(match[2]), int(match[3]), match[4].strip()
            self.begin(opened(2, 1, 2, TABLE_T, waiting, losses)[1], True)
            text = "".join(self.feed(byte) for byte in event_bytes(words)) + set_text(self.session)
            key = (match[1], waiting, losses, words)
            if key in STATED:
                assert (self.session.set, self.session.flag) == STATED[key], line
                self.stated.add(key)
            return text
        match = re.fullmatch(r"feed(( [io]\d+)+)", line)
        if match:
            return "".join(self.feed(byte) for byte in event_bytes(match[1])) + set_text(self.session)
        match = re.fullmatch(r"event ([io]\d+)", line)
        if match:
            return self.feed(event_bytes(match[1])[0]) + digest_text(self.session)
        if line == "view":
            return view_text(self.session)
        match = re.fullmatch(r"row (\d+) from (\d+) for (\d+)", line)
        if match:
            row, start, length = (int(n) for n in match.groups())
            assert length == self.session.inputs + self.session.outputs and start == row * length
            return "".join(f" {byte}" for byte in self.session.rows[start : start + length])
        match = re.fullmatch(r"change (.*)", line)
        if match:
            self.begin(changed(self.session, match[1]), False)
            return view_text(self.session)
        match = re.fullmatch(r"(damage (.*), )?byte (\d+)", line)
        if match:
            s = changed(self.session, match[2]) if match[2] else self.session
            refusal, after = fed(s, int(match[3]))
            return set_text(after) if refusal is None else refused(refusal) + " unchanged"
        match = re.fullmatch(
            r"(?:whole|long) states (\d+) inputs (\d+) outputs (\d+) rows (\d+) B (\d+) c (\d+) room (\d+) trace(?: of (\d+) times ([io]\d+)|((?: [io]\d+)*))",
            line,
        )
        if match:
            states, inputs, outputs, length, waiting, losses, room = (int(n) for n in match.groups()[:7])
            trace = event_bytes(match[9]) * int(match[8]) if match[9] else event_bytes(match[10])
            rows = (TABLE_T + [NOT_ALLOWED] * 2)[:length]
            refusal, flag, out = ran((states, inputs, outputs, waiting, losses), rows, trace, bytes([170]) * room)
            return (refused(refusal) if refusal else " ran") + flag_text(flag) + "".join(f" {byte}" for byte in out)
        raise ValueError(f"no case is written so: {line}")


def expected():
    """The lines that crates/cases must write."""
    for row, column, entry in STATED_ENTRIES:
        assert standard_entry(row, column) == entry
    bench = Bench()
    lines = []
    for line in (CASES / "stdin").read_text(encoding="ascii").splitlines():
        lines.append(line if line.startswith("#") else line + ":" + bench.line(line))
    bench.finish()
    assert bench.stated == set(STATED) | set(STATED_OPENINGS), "a small case of document 01 is missing"
    return lines


def check(lines):
    path = CASES / "stdout"
    stored = path.read_text(encoding="utf-8", errors="replace") if path.exists() else ""
    wanted = "".join(line + "\n" for line in lines)
    if stored == wanted:
        print(f"{len(lines)} passed, 0 failed")
        return 0
    difference = [d for d in difflib.ndiff(stored.splitlines(), lines) if d[0] != "?"]
    faults = [d for d in difference if d[0] != " "]
    for fault in faults[:20]:
        print({"-": "stored: ", "+": "wanted: "}[fault[0]] + fault[2:])
    if len(faults) > 20:
        print(f"and {len(faults) - 20} more")
    print(f"{len(difference) - len(faults)} passed, {max(len(faults), 1)} failed")
    return 1


def main():
    lines = expected()
    if sys.argv[1:] == ["--check"]:
        return check(lines)
    if sys.argv[1:]:
        print(__doc__)
        return 2
    print("\n".join(lines))
    return 0


if __name__ == "__main__":
    sys.exit(main())
