#!/usr/bin/env python3
"""Makes the house files that the program `listcases` lists, and says what must be printed of each.

    tests/make_listings.py            writes crates/listcases/data/, args and stdout
    tests/make_listings.py --check    makes them anew elsewhere and compares; the last line is 'N passed, M failed'

What is printed is worked out from document 01 by another road than in crates/: files are written and read by tests/make_files.py, and
the plausible sets are found by tests/oracle.py, which searches for all admissible runs. Each case names the last line that it is there
for, and the first has the whole text that document 01 prints.
"""

import sys
from pathlib import Path

import make_files as files
import oracle
import stored

CRATE = Path(__file__).resolve().parent.parent / "crates" / "listcases"

HEADER = "event symbol states waiting run"

# Document 01, "Small cases": T, B 2, c 1 and i0 four times.
EXAMPLE = """event symbol states waiting run
0 i0 0000000000000003 0-1 0-0
1 i0 0000000000000003 1-2 0-0
2 i0 0000000000000002 2-2 0-0
3 i0 0000000000000000 - -
flagged 3"""


# WHAT IS PRINTED


def symbol(byte):
    return f"i{byte}" if byte < 128 else f"o{byte - 128}"


def pair(numbers):
    return f"{min(numbers)}-{max(numbers)}" if numbers else "-"


def line(index, byte, members):
    """The line of an event, with the set of configurations that are plausible after it."""
    states = sum(1 << state for state in {state for state, _, _ in members})
    waiting = [w for _, w, _ in members]
    runs = [r for _, _, r in members]
    return f"{index} {symbol(byte)} {states:016x} {pair(waiting)} {pair(runs)}"


def listing(data):
    """The lines of a file's listing."""
    try:
        setup, rows, events = files.read(data, files.ROW_ROOM, files.EVENT_ROOM)
    except files.Refused as refusal:
        return [f"refused {refusal.text}"]
    states, inputs, outputs, waiting, losses, source = setup
    table = tuple(oracle.standard_rows() if source == 1 else rows)
    sets = oracle.plausible(oracle.Box(states, inputs, outputs, table, waiting, losses), events)[1:]
    flags = [place for place, members in enumerate(sets) if not members]
    last = f"flagged {flags[0]}" if flags else "consistent"
    return [HEADER, *(line(k, byte, sets[k]) for k, byte in enumerate(events)), last]


def lines(name, data):
    """All that the program writes of one file: its name, its listing, and what the listing came to, which the last line says."""
    listed = listing(data)
    return [name, *listed, f"answer {listed[-1].split()[0]}"]


# THE CASES

POLL, REPORT, BLANK = files.POLL, files.REPORT, files.BLANK
T, T_ROWS, BOX = files.T, files.T_ROWS, files.BOX


def bounded(setup, waiting, losses):
    return files.put(files.put(setup, 3, waiting), 4, losses)


def good_files():
    yield "example", files.house(T, T_ROWS, [POLL] * 4), "flagged 3"
    yield "no_events", files.house(T, T_ROWS), "consistent"
    yield "no_events_of_the_standard_box", files.house(BOX), "consistent"
    yield "both_kinds", files.house(T, T_ROWS, [POLL, REPORT, POLL, POLL, BLANK, REPORT]), "consistent"
    yield "output_first", files.house(T, T_ROWS, [BLANK]), "flagged 0"
    yield "flag_and_later_events", files.house(T, T_ROWS, [POLL, REPORT, REPORT, POLL, BLANK, POLL]), "flagged 2"
    yield "losses_allowed", files.house(bounded(T, 1, 2), T_ROWS, [POLL, POLL, REPORT, REPORT]), "consistent"
    # each poll of the standard box reported at once, with symbols above 9 and states up to 63
    in_turn = [byte for a in range(16) for byte in (a, 128 + a)]
    yield "symbols_above_9", files.house(BOX, b"", in_turn), "consistent"
    yield "symbols_above_9_and_a_flag", files.house(BOX, b"", in_turn + [143, 15, 143]), "flagged 32"
    yield "three_polls_not_reported", files.house(BOX, b"", [0, 1, 2, 13, 14, 15]), "consistent"
    yield "B_and_c_least", files.house(bounded(T, 1, 1), T_ROWS, [POLL, POLL, REPORT, POLL]), "consistent"
    yield "B_and_c_most", files.house(bounded(T, 32, 8), T_ROWS, [POLL] * 40 + [REPORT] * 9), "consistent"
    yield "B_and_c_most_and_a_flag", files.house(bounded(T, 32, 8), T_ROWS, [POLL, REPORT, BLANK, POLL]), "flagged 2"
    # an honest box whose report 0 the tap missed: no bounds cover that
    yield "report_missed_by_the_tap", files.house(bounded(BOX, 32, 8), b"", [0, 1, 129]), "flagged 2"
    yield "index_of_four_digits", files.house(T, T_ROWS, [POLL, REPORT] * 501), "consistent"


def refused_files():
    parts = files.blocks(T, T_ROWS, [POLL] * 4)
    # one place
    yield "refused_1", files.house(T, T_ROWS[:5], [POLL]), "refused 1 5"
    yield "refused_2", files.house(files.put(T, 0, 65), T_ROWS), "refused 2 65"
    yield "refused_3", files.house(files.put(T, 2, 17), T_ROWS), "refused 3 17"
    yield "refused_5", files.house(bounded(T, 33, 9), T_ROWS), "refused 5 33"
    yield "refused_6", files.house(bounded(T, 32, 9), T_ROWS), "refused 6 9"
    yield "refused_7", files.house(T, T_ROWS, [POLL, REPORT, 130]), "refused 7 2"
    yield "refused_9", files.house(T, T_ROWS, [POLL] * 4097), "refused 9 4097"
    yield "refused_12", files.off(parts, 2), "refused 12 2"
    yield "refused_14", files.house(files.put(T, 5, 1)), "refused 14 0"
    # two places
    yield "refused_4", files.house(T, T_ROWS[:4] + bytes([2, 0])), "refused 4 1 1"
    yield "refused_20", files.changed(parts, 1, (0, 4)), "refused 20 1 0"
    yield "refused_21", files.changed(parts, 2, (2, 9)), "refused 21 2 2"
    yield "refused_22", files.changed(parts, 1, (4, 249), (5, 1)), "refused 22 1 4"
    yield "refused_23", files.changed(parts, 2, (509, 1)), "refused 23 2 509"
    # the length, up to the room that the program has, one byte above it, and far above it
    yield "refused_11_empty", b"", "refused 11 0"
    yield "refused_11_not_whole_blocks", b"".join(parts)[:-1], "refused 11 1535"
    yield "refused_11_at_the_room", bytes(7681), "refused 11 7681"
    yield "refused_11_above_the_room", bytes(7682), "refused 11 7682"
    yield "refused_11_far_above_the_room", bytes(20000), "refused 11 20000"


def cases():
    return [*good_files(), *refused_files()]


def fault(name, data, expected):
    """What is wrong with a case by itself, or None."""
    listed = listing(data)
    if name == "example" and "\n".join(listed) != EXAMPLE:
        return f"{name}: not what document 01 prints"
    return None if listed[-1] == expected else f"{name}: the listing ends with {listed[-1]}, and the case with {expected}"


if __name__ == "__main__":
    sys.exit(stored.main(sys.argv[1:], __doc__, CRATE, cases, fault, lines))
