#!/usr/bin/env python3
"""Makes the house files that the program `filecases` reads, and says what must come of each.

    tests/make_files.py            writes crates/filecases/data/, args and stdout
    tests/make_files.py --check    makes them anew elsewhere and compares; the last line is 'N passed, M failed'

The files and the reader below are written from documents 01 and 02 and share nothing with crates/. Each case names the
refusal that it is there for, or what a good file holds; the reader must come to the same.
"""

import sys
from pathlib import Path

import stored

CRATE = Path(__file__).resolve().parent.parent / "crates" / "filecases"

BLOCK = 512
PAYLOAD_AT = 6
ROOM = 504
CHECK_AT = 510
MODULUS = 65521
SETUP, ROWS, EVENTS = 1, 2, 3
MOST_BLOCKS = 15
MOST_EVENTS = 4096

# The program's buffers, and what stands in them before a file is read.
ROW_ROOM = 2100
EVENT_ROOM = 4200
MARK = 170


# READING


class Refused(Exception):
    """A refusal: the number and its places."""

    def __init__(self, number, *places):
        super().__init__(number, *places)
        self.text = " ".join(str(n) for n in (number, *places))


def word(data, at):
    return data[at] | data[at + 1] << 8


def weighed(data):
    return sum(i * byte for i, byte in enumerate(data, 1)) % MODULUS


def flaw(block, index, before):
    """What is wrong with a block at its place after the block before it (None before block 0): the number, 20 to 23, and
    the offset; None, if nothing is."""
    kind, used = block[0], word(block, 4)
    if kind not in ((SETUP,) if before is None else (ROWS, EVENTS)):
        return 20, 0
    if before is not None and (kind < before[0] or kind == before[0] and word(before, 4) < ROOM):
        return 20, 0
    if block[1] != 0:
        return 21, 1
    if word(block, 2) != index:
        return 21, 2
    if not (used == 6 if before is None else 1 <= used <= ROOM):
        return 22, 4
    if before is None and block[PAYLOAD_AT + 5] > 1:
        return 23, PAYLOAD_AT + 5
    for at in range(PAYLOAD_AT + used, CHECK_AT):
        if block[at] != 0:
            return 23, at
    return None


def is_well_formed(block, index, before):
    """The same as document 01 has it, where all of it was number 13: the set of files turned away has not changed."""
    kind, used = block[0], word(block, 4)
    if block[1] != 0 or word(block, 2) != index:
        return False
    if before is None:
        if kind != SETUP or used != 6 or block[PAYLOAD_AT + 5] > 1:
            return False
    else:
        if kind not in (ROWS, EVENTS) or not 1 <= used <= ROOM:
            return False
        if kind < before[0] or kind == before[0] and word(before, 4) < ROOM:
            return False
    return not any(block[PAYLOAD_AT + used : CHECK_AT])


def is_event(byte, inputs, outputs):
    return byte < inputs if byte < 128 else byte - 128 < outputs


def read(data, row_room, event_room):
    """What the file holds: states, inputs, outputs, B, c, source; the rows; the events. Raises Refused."""
    if len(data) % BLOCK or not 1 <= len(data) // BLOCK <= MOST_BLOCKS:
        raise Refused(11, len(data))
    before = None
    held = {SETUP: b"", ROWS: b"", EVENTS: b""}
    for index in range(len(data) // BLOCK):
        block = data[index * BLOCK : (index + 1) * BLOCK]
        if word(block, CHECK_AT) != weighed(block[:CHECK_AT]):
            raise Refused(12, index)
        found = flaw(block, index, before)
        if (found is None) != is_well_formed(block, index, before):
            raise ValueError(f"block {index}: {found} where document 01 has another set")
        if found:
            number, offset = found
            raise Refused(number, index, offset)
        held[block[0]] += block[PAYLOAD_AT : PAYLOAD_AT + word(block, 4)]
        before = block
    setup, rows, events = held[SETUP], held[ROWS], held[EVENTS]
    states, inputs, outputs, waiting, losses, source = setup
    if not 1 <= states <= 64:
        raise Refused(2, states)
    for count in (inputs, outputs):
        if not 1 <= count <= 16:
            raise Refused(3, count)
    if source == 1 and (states, inputs, outputs) != (64, 16, 16):
        raise Refused(14, 0)
    width = inputs + outputs
    if len(rows) != (0 if source == 1 else states * width):
        raise Refused(1, len(rows))
    for at, entry in enumerate(rows):
        if entry != 255 and entry >= states:
            raise Refused(4, at // width, at % width)
    if not 1 <= waiting <= 32:
        raise Refused(5, waiting)
    if not 1 <= losses <= 8:
        raise Refused(6, losses)
    if len(events) > MOST_EVENTS:
        raise Refused(9, len(events))
    for index, event in enumerate(events):
        if not is_event(event, inputs, outputs):
            raise Refused(7, index)
    if len(rows) > row_room:
        raise Refused(10, len(rows))
    if len(events) > event_room:
        raise Refused(10, len(events))
    return setup, rows, events


# WHAT THE PROGRAM WRITES


def digest(start, room):
    """Of a buffer of marks after these bytes were put at its start."""
    return weighed(start + bytes([MARK]) * (room - len(start)))


def outcome(data, row_room, event_room):
    """The line after the name, and the rows and events read (None, if refused)."""
    try:
        setup, rows, events = read(data, row_room, event_room)
    except Refused as refusal:
        return f"refused {refusal.text} digests {digest(b'', row_room)} {digest(b'', event_room)}", None
    states, inputs, outputs, waiting, losses, source = setup
    text = f"states {states} inputs {inputs} outputs {outputs} B {waiting} c {losses} source {source}"
    text += f" rows {len(rows)} events {len(events)}"
    return f"{text} digests {digest(rows, row_room)} {digest(events, event_room)}", (len(rows), len(events))


def lines(name, data):
    """All that the program writes of one file: with room to spare; if it is good, in buffers that just fit and in such
    that are too short by one; and with no buffers at all."""
    text, lengths = outcome(data, ROW_ROOM, EVENT_ROOM)
    made = [f"{name} {text}"]
    rooms = []
    if lengths:
        rows, events = lengths
        rooms.append((rows, events))
        if rows:
            rooms.append((rows - 1, events))
        if events:
            rooms.append((rows, events - 1))
    rooms.append((0, 0))
    for row_room, event_room in rooms:
        text, _ = outcome(data, row_room, event_room)
        made.append(f"{name} in {row_room} {event_room} {text}")
    return made


# WRITING


def sealed(block):
    """The block with the check that its bytes ask for."""
    body = bytes(block[:CHECK_AT])
    return body + weighed(body).to_bytes(2, "little")


def block(kind, index, payload):
    body = bytes([kind, 0]) + index.to_bytes(2, "little") + len(payload).to_bytes(2, "little") + payload
    return sealed(body + bytes(CHECK_AT - len(body)))


def portions(payload):
    return [payload[at : at + ROOM] for at in range(0, len(payload), ROOM)]


def arranged(*parts):
    """Blocks of these kinds and payloads, numbered from 0."""
    return [block(kind, index, payload) for index, (kind, payload) in enumerate(parts)]


def blocks(setup, rows=b"", events=b""):
    return arranged(
        (SETUP, bytes(setup)),
        *((ROWS, part) for part in portions(bytes(rows))),
        *((EVENTS, part) for part in portions(bytes(events))),
    )


def house(setup, rows=b"", events=b""):
    return b"".join(blocks(setup, rows, events))


def changed(parts, index, *changes, seal=True):
    """The file in which bytes of one block are changed: (place, byte) pairs. With seal, its check is made right again."""
    parts = list(parts)
    body = bytearray(parts[index])
    for place, byte in changes:
        body[place] = byte
    parts[index] = sealed(body) if seal else bytes(body)
    return b"".join(parts)


def checked(parts, index, stored):
    """The file in which this is the check of one block."""
    return changed(parts, index, (CHECK_AT, stored & 255), (CHECK_AT + 1, stored >> 8), seal=False)


def off(parts, index, by=1):
    """The file in which the check of one block is off by so much."""
    return checked(parts, index, (word(parts[index], CHECK_AT) + by) % MODULUS)


def split(data):
    return [data[at : at + BLOCK] for at in range(0, len(data), BLOCK)]


# THE CASES

# Table T of document 01, with B 2 and c 1.
T = (2, 1, 2, 2, 1, 0)
T_ROWS = bytes([1, 255, 255, 255, 0, 0])
POLL, REPORT, BLANK = 0, 128, 129
# The standard box, with B 4 and c 2.
BOX = (64, 16, 16, 4, 2, 1)
# A table as large as the standard box, with its rows in the file.
LARGE = (64, 16, 16, 4, 2, 0)
LARGE_ROWS = bytes(255 if at % 7 == 3 else at * 5 % 64 for at in range(2048))
# Every event byte that 16 inputs and 16 outputs allow.
ALL_EVENTS = bytes(range(16)) + bytes(range(128, 144))


def polls(n):
    """Polls with a report or a blank here and there, for T."""
    return bytes((POLL, POLL, REPORT, POLL, BLANK)[at % 5] for at in range(n))


def symbols(n):
    """Events of the standard box."""
    return bytes(ALL_EVENTS[at * 7 % 32] for at in range(n))


def put(values, at, value):
    """The values with one of them replaced."""
    values = list(values)
    values[at] = value
    return tuple(values)


def with_check(wanted):
    """Blocks of a file of the standard box whose event block, a full one, has this check."""
    plain = block(EVENTS, 1, bytes(ROOM))
    for total in range((wanted - weighed(plain[:CHECK_AT])) % MODULUS, 15 * 130000, MODULUS):
        events = bytearray(ROOM)
        left = total
        for at in reversed(range(ROOM)):
            weight = PAYLOAD_AT + at + 1
            events[at] = min(15, left // weight)
            left -= events[at] * weight
        if left == 0:
            return blocks(BOX, b"", events)
    raise ValueError(wanted)


CASES = []


def case(name, data, expected):
    """A file, and what it is there for: the number and places of its refusal, or what is read."""
    CASES.append((name, bytes(data), expected))


def good(name, data, setup, rows=b"", events=b""):
    """A file that is read, and holds these things."""
    case(name, data, (bytes(setup), bytes(rows), bytes(events)))


def holding(name, setup, rows=b"", events=b""):
    """A good file with the blocks that these things ask for."""
    good(name, house(setup, rows, events), setup, rows, events)


def good_files():
    holding("good_example", T, T_ROWS, [POLL] * 4)
    holding("good_no_events", T, T_ROWS)
    holding("good_1_event", T, T_ROWS, [POLL])
    holding("good_503_events", T, T_ROWS, polls(503))
    holding("good_504_events", T, T_ROWS, polls(504))
    holding("good_505_events", T, T_ROWS, polls(505))
    holding("good_1008_events", T, T_ROWS, polls(1008))
    holding("good_4095_events", BOX, b"", symbols(4095))
    holding("good_4096_events", T, T_ROWS, polls(4096))
    holding("good_standard_box_512_bytes", BOX)
    holding("good_standard_box_all_symbols", BOX, b"", ALL_EVENTS)
    holding("good_1_state", (1, 1, 1, 1, 1, 0), [0, 255], [0, 128, 0])
    holding("good_1_state_nothing_allowed", (1, 1, 1, 1, 1, 0), [255, 255], [0, 128])
    holding("good_64_states_16_16_rows_in_5_blocks", LARGE, LARGE_ROWS, ALL_EVENTS)
    holding("good_15_blocks_7680_bytes", LARGE, LARGE_ROWS, symbols(4096))
    # 63 states of width 8 fill a row block; 22 states of width 23 need two bytes of another
    holding("good_rows_fill_a_block", (63, 4, 4, 3, 2, 0), bytes(at % 63 for at in range(504)))
    holding("good_rows_fill_a_block_then_events", (63, 4, 4, 3, 2, 0), bytes(at % 63 for at in range(504)), [3, 131])
    holding("good_rows_506_in_2_blocks", (22, 11, 12, 3, 2, 0), bytes(at % 22 for at in range(506)), [10, 139])
    holding("good_B_1_c_1", put(put(T, 3, 1), 4, 1), T_ROWS, [POLL])
    holding("good_B_32_c_8", put(put(T, 3, 32), 4, 8), T_ROWS, [POLL])
    holding("good_standard_box_B_32_c_8", (64, 16, 16, 32, 8, 1), b"", symbols(40))
    for wanted in (0, 1, 255, 256, 65520):
        data = b"".join(with_check(wanted))
        good(f"good_check_{wanted}", data, BOX, b"", data[BLOCK + PAYLOAD_AT : BLOCK + CHECK_AT])


EXAMPLE = blocks(T, T_ROWS, [POLL] * 4)
# Two full event blocks and a short one, after the rows of T.
LONG = blocks(T, T_ROWS, polls(1010))


def length_files():
    example = b"".join(EXAMPLE)
    whole = house(LARGE, LARGE_ROWS, symbols(4096))
    case("length_0", b"", "11 0")
    case("length_1", example[:1], "11 1")
    case("length_511", house(BOX)[:511], "11 511")
    case("length_513", house(BOX) + b"\0", "11 513")
    case("length_1023", example[:1023], "11 1023")
    case("length_1535", example[:1535], "11 1535")
    case("length_1537", example + b"\0", "11 1537")
    case("length_7679", whole[:7679], "11 7679")
    case("length_7681", whole + b"\0", "11 7681")
    case("length_8191", (whole + bytes(512))[:8191], "11 8191")
    case("length_8192_of_16_good_blocks", house(BOX, b"", symbols(15 * ROOM)), "11 8192")
    case("length_8704_of_17_good_blocks", house(BOX, b"", symbols(16 * ROOM)), "11 8704")


def check_files():
    for index in range(3):
        case(f"check_one_more_in_block_{index}", off(EXAMPLE, index), f"12 {index}")
        case(f"check_one_less_in_block_{index}", off(EXAMPLE, index, -1), f"12 {index}")
    case("check_of_the_block_before", checked(EXAMPLE, 1, word(EXAMPLE[0], CHECK_AT)), "12 1")
    case("check_of_the_block_after", checked(EXAMPLE, 1, word(EXAMPLE[2], CHECK_AT)), "12 1")
    case("check_high_byte_off", off(EXAMPLE, 0, 256), "12 0")
    case("check_high_byte_first", checked(EXAMPLE, 0, int.from_bytes(EXAMPLE[0][CHECK_AT:], "big")), "12 0")
    case("check_0_stored", checked(EXAMPLE, 0, 0), "12 0")
    # the same sum, but not below 65,521
    for wanted in (0, 1, 14):
        parts = with_check(wanted)
        case(f"check_{wanted}_stored_as_{wanted + MODULUS}", checked(parts, 1, wanted + MODULUS), "12 1")
    # the sum that a slip would give, of a block whose last payload byte is an event
    full = blocks(BOX, b"", bytes([1, 2]) + bytes([143]) * 502)
    body = full[1][:CHECK_AT]
    total = sum(i * byte for i, byte in enumerate(body, 1))
    case("check_weights_from_0", checked(full, 1, (total - sum(body)) % MODULUS), "12 1")
    case("check_modulo_65536", checked(full, 1, total % 65536), "12 1")
    case("check_modulo_65520", checked(full, 1, total % 65520), "12 1")
    case("check_of_plain_sum", checked(full, 1, sum(body) % MODULUS), "12 1")
    case("check_without_byte_0", checked(full, 1, (total - body[0]) % MODULUS), "12 1")
    case("check_without_byte_509", checked(full, 1, (total - 510 * body[509]) % MODULUS), "12 1")
    # a byte changed, the check left
    case("check_left_when_first_byte_changed", changed(EXAMPLE, 0, (0, 2), seal=False), "12 0")
    case("check_left_when_last_payload_byte_changed", changed(full, 1, (509, 1), seal=False), "12 1")
    case("check_left_when_two_events_swapped", changed(full, 1, (6, 2), (7, 1), seal=False), "12 1")
    case("check_left_in_last_of_five_blocks", changed(LONG, 4, (6, LONG[4][6] ^ 128), seal=False), "12 4")


def kind_files():
    case("kind_0_in_block_0", changed(EXAMPLE, 0, (0, 0)), "20 0 0")
    case("kind_0_all_zero_block", bytes(BLOCK), "20 0 0")
    for kind in (2, 3, 4, 255):
        case(f"kind_{kind}_in_block_0", changed(EXAMPLE, 0, (0, kind)), "20 0 0")
    for kind in (0, 1, 4, 255):
        case(f"kind_{kind}_in_block_1", changed(EXAMPLE, 1, (0, kind)), "20 1 0")
        case(f"kind_{kind}_in_block_2", changed(EXAMPLE, 2, (0, kind)), "20 2 0")
    case("kind_1_twice", b"".join(arranged((SETUP, bytes(BOX)), (SETUP, bytes(BOX)))), "20 1 0")
    case("kind_events_first", b"".join(arranged((EVENTS, bytes(4)))), "20 0 0")


def order_files():
    setup = (SETUP, bytes(T))
    rows = (ROWS, T_ROWS)

    def order(name, expected, *parts):
        case(f"order_{name}", b"".join(arranged(setup, *parts)), expected)

    order("rows_after_events", "20 2 0", (EVENTS, polls(4)), rows)
    order("rows_after_full_events", "20 2 0", (EVENTS, polls(504)), rows)
    order("rows_events_rows", "20 3 0", rows, (EVENTS, polls(4)), rows)
    order("full_rows_events_rows", "20 3 0", (ROWS, bytes(504)), (EVENTS, polls(4)), rows)
    order("rows_after_short_rows", "20 2 0", (ROWS, T_ROWS[:3]), (ROWS, T_ROWS[3:]))
    order("rows_after_503_rows", "20 2 0", (ROWS, bytes(503)), rows)
    order("rows_after_full_and_short_rows", "20 3 0", (ROWS, bytes(504)), rows, rows)
    order("events_after_short_events", "20 3 0", rows, (EVENTS, polls(4)), (EVENTS, polls(4)))
    order("events_after_503_events", "20 3 0", rows, (EVENTS, polls(503)), (EVENTS, polls(1)))
    order("events_after_short_events_full", "20 3 0", rows, (EVENTS, polls(1)), (EVENTS, polls(504)))
    full, few = (EVENTS, polls(504)), (EVENTS, polls(4))
    order("events_after_full_and_short_events", "20 4 0", rows, full, few, few)


def field_files():
    case("byte_one_1_in_block_0", changed(EXAMPLE, 0, (1, 1)), "21 0 1")
    case("byte_one_255_in_block_1", changed(EXAMPLE, 1, (1, 255)), "21 1 1")
    case("byte_one_128_in_last_block", changed(EXAMPLE, 2, (1, 128)), "21 2 1")

    case("number_1_in_block_0", changed(EXAMPLE, 0, (2, 1)), "21 0 2")
    case("number_256_in_block_0", changed(EXAMPLE, 0, (3, 1)), "21 0 2")
    case("number_0_in_block_1", changed(EXAMPLE, 1, (2, 0)), "21 1 2")
    case("number_2_in_block_1", changed(EXAMPLE, 1, (2, 2)), "21 1 2")
    case("number_256_in_block_1", changed(EXAMPLE, 1, (2, 0), (3, 1)), "21 1 2")
    case("number_257_in_block_1", changed(EXAMPLE, 1, (3, 1)), "21 1 2")
    case("number_65281_in_block_1", changed(EXAMPLE, 1, (3, 255)), "21 1 2")
    case("number_1_in_block_2", changed(EXAMPLE, 2, (2, 1)), "21 2 2")
    case("number_3_in_block_2", changed(EXAMPLE, 2, (2, 3)), "21 2 2")
    later = [block(part[0], index, part[6 : 6 + word(part, 4)]) for index, part in enumerate(EXAMPLE, 1)]
    case("number_from_1", b"".join(later), "21 0 2")

    for used in (0, 5, 7, 262, 504, 505, 1536, 65535):
        case(f"used_{used}_in_block_0", changed(EXAMPLE, 0, (4, used & 255), (5, used >> 8)), "22 0 4")
    for used in (0, 505, 506, 1540, 65535):
        case(f"used_{used}_in_block_1", changed(EXAMPLE, 1, (4, used & 255), (5, used >> 8)), "22 1 4")
        case(f"used_{used}_in_block_2", changed(EXAMPLE, 2, (4, used & 255), (5, used >> 8)), "22 2 4")
    case("used_0_in_an_empty_row_block", b"".join(arranged((SETUP, bytes(BOX)), (ROWS, b""))), "22 1 4")
    case("used_0_in_an_empty_event_block", b"".join(arranged((SETUP, bytes(BOX)), (EVENTS, b""))), "22 1 4")
    case("used_505_in_a_full_block", changed(blocks(BOX, b"", symbols(504)), 1, (4, 249)), "22 1 4")

    for source in (2, 3, 128, 255):
        case(f"source_{source}", changed(EXAMPLE, 0, (11, source)), "23 0 11")

    for index, used in ((0, 6), (1, 6), (2, 4)):
        case(f"fill_first_byte_of_block_{index}", changed(EXAMPLE, index, (6 + used, 1)), f"23 {index} {6 + used}")
        case(f"fill_last_byte_of_block_{index}", changed(EXAMPLE, index, (509, 255)), f"23 {index} 509")
    case("fill_middle_byte_of_block_1", changed(EXAMPLE, 1, (300, 128)), "23 1 300")
    case("fill_two_bytes_of_block_1", changed(EXAMPLE, 1, (13, 1), (400, 1)), "23 1 13")
    case("fill_all_bytes_of_block_2", changed(EXAMPLE, 2, *((at, 255) for at in range(10, 510))), "23 2 10")
    case("fill_byte_11_of_block_1", changed(EXAMPLE, 1, (4, 5), (11, 7)), "23 1 11")
    case("fill_only_byte_of_503_events", changed(blocks(T, T_ROWS, polls(503)), 2, (509, 1)), "23 2 509")
    case("fill_one_event_too_many_for_the_used_count", changed(EXAMPLE, 2, (4, 3), (9, REPORT)), "23 2 9")


def count_files():
    for states in (0, 65, 128, 255):
        setup = put(T, 0, states)
        case(f"states_{states}", house(setup, bytes([255]) * min(states * 3, 504), [POLL]), f"2 {states}")
    case("states_0_no_rows", house(put(T, 0, 0)), "2 0")
    for count in (0, 17, 128, 255):
        case(f"inputs_{count}", house(put(T, 1, count), bytes([255]) * (2 * (count + 2)), [POLL]), f"3 {count}")
        case(f"outputs_{count}", house(put(T, 2, count), bytes([255]) * (2 * (count + 1)), [POLL]), f"3 {count}")
    case("inputs_17_outputs_18", house((2, 17, 18, 2, 1, 0), bytes(70)), "3 17")
    case("inputs_18_outputs_17", house((2, 18, 17, 2, 1, 0), bytes(70)), "3 18")
    case("inputs_0_outputs_17", house((2, 0, 17, 2, 1, 0), bytes(34)), "3 0")
    case("inputs_17_outputs_0", house((2, 17, 0, 2, 1, 0), bytes(34)), "3 17")


def table_files():
    for at, name in enumerate(("states", "inputs", "outputs")):
        case(f"standard_box_one_of_{name}_too_few", house(put(BOX, at, BOX[at] - 1)), "14 0")
    case("standard_box_counts_1", house((1, 1, 1, 1, 1, 1)), "14 0")
    case("standard_box_counts_of_T_without_rows", house(put(T, 5, 1), b"", [POLL]), "14 0")

    case("rows_none", house(T), "1 0")
    case("rows_none_but_events", house(T, b"", [POLL]), "1 0")
    case("rows_one_byte", house(T, T_ROWS[:1]), "1 1")
    case("rows_one_byte_too_few", house(T, T_ROWS[:5], [POLL]), "1 5")
    case("rows_one_byte_too_many", house(T, T_ROWS + b"\xff", [POLL]), "1 7")
    case("rows_one_row_too_many", house(T, T_ROWS + T_ROWS[:3], [POLL]), "1 9")
    case("rows_of_one_state_alone", house(T, T_ROWS[:3], [POLL]), "1 3")
    case("rows_2047", house(LARGE, LARGE_ROWS[:2047]), "1 2047")
    case("rows_2049", house(LARGE, LARGE_ROWS + b"\xff"), "1 2049")
    case("rows_7056_in_14_blocks", house(LARGE, bytes(7056)), "1 7056")
    case("rows_1_with_standard_box", house(BOX, b"\xff", [POLL]), "1 1")
    case("rows_2048_with_standard_box", house(BOX, LARGE_ROWS, [POLL]), "1 2048")
    case("rows_bad_with_standard_box", house(BOX, bytes([64, 254]), [POLL]), "1 2")

    def entry(name, setup, rows, *changes):
        """Entries changed; the first of them is told."""
        rows = bytearray(rows)
        for at, value in changes:
            rows[at] = value
        row, column = divmod(changes[0][0], setup[1] + setup[2])
        case(f"entry_{name}", house(setup, rows), f"4 {row} {column}")

    for value in (2, 254):
        entry(f"first_is_{value}", T, T_ROWS, (0, value))
        entry(f"last_is_{value}", T, T_ROWS, (5, value))
    entry("first_is_128", T, T_ROWS, (0, 128))
    entry("first_output_of_row_0", T, T_ROWS, (1, 2))
    entry("first_of_row_1", T, T_ROWS, (3, 2))
    entry("every_one", T, T_ROWS, *((at, 2) for at in range(6)))
    entry("last_of_row_0_before_first_of_row_1", T, T_ROWS, (2, 9), (3, 9))
    entry("1_of_1_state", (1, 1, 1, 1, 1, 0), [0, 0], (1, 1))
    entry("64_of_64_states_first", LARGE, LARGE_ROWS, (0, 64))
    entry("64_of_64_states_last_of_block_1", LARGE, LARGE_ROWS, (503, 64))
    entry("64_of_64_states_first_of_block_2", LARGE, LARGE_ROWS, (504, 64))
    entry("64_of_64_states_in_blocks_2_and_4", LARGE, LARGE_ROWS, (700, 64), (1700, 254))
    entry("64_of_64_states_last", LARGE, LARGE_ROWS, (2047, 64))


def bound_files():
    for waiting in (0, 33, 128, 255):
        case(f"B_{waiting}", house(put(T, 3, waiting), T_ROWS, [POLL]), f"5 {waiting}")
    for losses in (0, 9, 128, 255):
        case(f"c_{losses}", house(put(T, 4, losses), T_ROWS, [POLL]), f"6 {losses}")
    case("standard_box_B_33", house(put(BOX, 3, 33)), "5 33")
    case("standard_box_c_9", house(put(BOX, 4, 9)), "6 9")


def event_files():
    case("events_4097", house(T, T_ROWS, polls(4097)), "9 4097")
    case("events_4097_of_the_standard_box", house(BOX, b"", symbols(4097)), "9 4097")
    case("events_7056_in_14_blocks", house(BOX, b"", symbols(7056)), "9 7056")

    def event(name, setup, rows, events, *changes):
        """Events changed; the first of them is told."""
        events = bytearray(events)
        for at, value in changes:
            events[at] = value
        case(f"event_{name}", house(setup, rows, events), f"7 {changes[0][0]}")

    # just past the counts of T
    event("input_1_of_1", T, T_ROWS, polls(4), (0, 1))
    event("output_2_of_2", T, T_ROWS, polls(4), (0, 130))
    event("input_15_of_1", T, T_ROWS, polls(4), (2, 15))
    event("output_15_of_2", T, T_ROWS, polls(4), (2, 143))
    # the only one, the last one, and two
    event("only_one", T, T_ROWS, polls(1), (0, 255))
    event("last_of_four", T, T_ROWS, polls(4), (3, 1))
    event("two_at_1_and_3", T, T_ROWS, polls(4), (1, 130), (3, 1))
    # bytes that are no event of any table
    for byte in (16, 64, 65, 127, 144, 192, 254, 255):
        event(f"byte_{byte}_with_16_and_16", BOX, b"", symbols(3), (1, byte))
    # where blocks meet, and the last place of all
    event("503_of_505", T, T_ROWS, polls(505), (503, 1))
    event("504_of_505", T, T_ROWS, polls(505), (504, 1))
    event("4095_of_4096", BOX, b"", symbols(4096), (4095, 16))
    # more inputs than outputs, and the other way round
    event("output_3_of_3_with_5_inputs", (1, 5, 3, 1, 1, 0), bytes(8), [4, 130, 130], (2, 131))
    event("input_3_of_3_with_5_outputs", (1, 3, 5, 1, 1, 0), bytes(8), [2, 132, 2], (2, 3))


def pair_files():
    """Two faults or more at once: the first in the documents' order is told."""

    def pair(first, second, note, data, places):
        case(f"pair_{first}_before_{second}_{note}", data, f"{first} {places}")

    # the file and its blocks
    pair(11, 12, "length_513", off(blocks(BOX), 0) + b"\0", "513")
    pair(11, 12, "length_8192", off(split(house(BOX, b"", symbols(15 * ROOM))), 0), "8192")
    pair(11, 20, "length_1535", changed(EXAMPLE, 0, (0, 9))[:1535], "1535")
    pair(11, 2, "length_511", house(put(BOX, 0, 0))[:511], "511")
    faults = [(0, 20, "kind", (0, 9)), (1, 20, "kind", (0, 9)), (2, 20, "kind", (0, 9)), (2, 21, "byte_one", (1, 1))]
    faults += [(2, 21, "number", (3, 7)), (2, 22, "used", (5, 255)), (2, 23, "fill", (509, 1)), (0, 23, "source", (11, 2))]
    for index, number, name, change in faults:
        pair(12, number, f"{name}_of_the_same_block_{index}", off(split(changed(EXAMPLE, index, change)), index), index)
    disordered = arranged((SETUP, bytes(T)), (EVENTS, polls(4)), (ROWS, T_ROWS))
    pair(12, 20, "order_of_the_same_block", off(disordered, 2), 2)
    pair(21, 12, "block_0_before_block_1", off(split(changed(EXAMPLE, 0, (1, 1))), 1), "0 1")
    pair(23, 12, "block_0_before_block_2", off(split(changed(EXAMPLE, 0, (11, 2))), 2), "0 11")
    pair(23, 12, "block_1_before_block_2", off(split(changed(EXAMPLE, 1, (509, 1))), 2), "1 509")
    pair(12, 21, "block_0_before_block_1", off(split(changed(EXAMPLE, 1, (1, 1))), 0), 0)
    pair(12, 21, "block_1_before_block_2", off(split(changed(EXAMPLE, 2, (1, 1))), 1), 1)
    pair(12, 12, "block_1_before_block_2", off(split(off(EXAMPLE, 2)), 1), 1)
    pair(21, 20, "block_1_before_block_2", changed(split(changed(EXAMPLE, 2, (0, 9))), 1, (1, 1)), "1 1")
    pair(23, 20, "block_0_before_block_1", changed(split(changed(EXAMPLE, 1, (0, 9))), 0, (11, 2)), "0 11")

    # every two parts of one block: the number, the offset, what it is, and the byte that makes it so
    setup = [(20, 0, "kind", (0, 9)), (21, 1, "byte_one", (1, 1)), (21, 2, "number", (2, 1)), (22, 4, "used", (4, 5))]
    setup += [(23, 11, "source", (11, 2)), (23, 12, "fill", (12, 1))]
    later = [(20, 0, "kind", (0, 9)), (21, 1, "byte_one", (1, 1)), (21, 2, "number", (3, 7)), (22, 4, "used", (4, 0))]
    later += [(23, 300, "fill", (300, 1)), (23, 509, "last_fill", (509, 1))]
    for index, parts in ((0, setup), (2, later)):
        for at, (first, offset, name, change) in enumerate(parts):
            for second, _, other, another in parts[at + 1 :]:
                note = f"{name}_before_{other}_in_block_{index}"
                pair(first, second, note, changed(EXAMPLE, index, change, another), f"{index} {offset}")
    # a block in the wrong order of which another part is wrong
    for second, _, other, another in later[1:]:
        pair(20, second, f"order_before_{other}", changed(disordered, 2, another), "2 0")
    # everything wrong from some part on
    for at, (first, offset, name, _) in enumerate(setup):
        note = f"{name}_and_all_after"
        case(f"parts_{note}", changed(EXAMPLE, 0, *(change for _, _, _, change in setup[at:])), f"{first} 0 {offset}")

    # a later block's form before an earlier block's content
    bad_setup = blocks((0, 0, 17, 0, 0, 0), T_ROWS, [POLL] * 4)
    bad_rows = blocks(T, bytes([2] * 6), [POLL] * 4)
    pair(12, 2, "last_check_before_states", off(bad_setup, 2), 2)
    pair(20, 2, "last_kind_before_states", changed(bad_setup, 2, (0, 9)), "2 0")
    pair(12, 4, "last_check_before_entry", off(bad_rows, 2), 2)
    pair(23, 4, "last_fill_before_entry", changed(bad_rows, 2, (509, 1)), "2 509")
    pair(12, 1, "last_check_before_rows_too_few", off(blocks(T, T_ROWS[:5], [POLL]), 2), 2)
    pair(21, 7, "last_number_before_event", changed(blocks(T, T_ROWS, [9] * 505), 3, (2, 9)), "3 2")
    pair(12, 9, "last_check_before_4097_events", off(blocks(BOX, b"", symbols(4097)), 9), 9)

    # the content, by neighbours
    pair(2, 3, "states_0_inputs_0", house((0, 0, 2, 2, 1, 0), T_ROWS), 0)
    pair(2, 3, "states_65_outputs_17", house((65, 1, 17, 2, 1, 0), T_ROWS), 65)
    pair(2, 14, "states_65_of_the_standard_box", house(put(BOX, 0, 65)), 65)
    pair(2, 14, "states_0_of_the_standard_box", house(put(BOX, 0, 0)), 0)
    pair(3, 14, "inputs_17_of_the_standard_box", house(put(BOX, 1, 17)), 17)
    pair(3, 14, "outputs_0_of_the_standard_box", house(put(BOX, 2, 0)), 0)
    pair(3, 1, "inputs_0_rows_none", house(put(T, 1, 0)), 0)
    pair(14, 1, "counts_of_T_with_rows", house(put(T, 5, 1), T_ROWS), 0)
    pair(14, 5, "states_63_B_0", house((63, 16, 16, 0, 1, 1)), 0)
    pair(14, 7, "states_63_event_16", house(put(BOX, 0, 63), b"", [16]), 0)
    pair(1, 4, "one_byte_too_few_of_bad_entries", house(T, bytes([2] * 5)), 5)
    pair(1, 4, "one_byte_too_many_of_bad_entries", house(T, bytes([2] * 7)), 7)
    pair(1, 5, "rows_with_the_standard_box_B_0", house(put(BOX, 3, 0), b"\xff"), 1)
    pair(1, 7, "rows_none_event_1", house(T, b"", [1]), 0)
    pair(4, 5, "last_entry_B_0", house(put(T, 3, 0), T_ROWS[:5] + b"\x02"), "1 2")
    pair(4, 6, "last_entry_c_0", house(put(T, 4, 0), T_ROWS[:5] + b"\x02"), "1 2")
    pair(4, 7, "last_entry_event_1", house(T, T_ROWS[:5] + b"\x02", [1]), "1 2")
    pair(5, 6, "B_0_c_0", house(put(put(T, 3, 0), 4, 0), T_ROWS), 0)
    pair(5, 6, "B_33_c_9", house(put(put(T, 3, 33), 4, 9), T_ROWS), 33)
    pair(5, 9, "B_33_4097_events", house(put(BOX, 3, 33), b"", symbols(4097)), 33)
    pair(6, 9, "c_9_4097_events", house(put(BOX, 4, 9), b"", symbols(4097)), 9)
    pair(6, 7, "c_0_event_16", house(put(BOX, 4, 0), b"", [16]), 0)
    pair(9, 7, "4097_events_the_first_bad", house(BOX, b"", b"\xff" + symbols(4096)), 4097)
    pair(9, 7, "4097_events_the_last_bad", house(BOX, b"", symbols(4096) + b"\xff"), 4097)

    # everything wrong from some number on
    bad = bytes([254] * 6)
    events = b"\xff" * 4097
    case("all_wrong_from_2_on", house((0, 0, 0, 0, 0, 1), bad, events), "2 0")
    case("all_wrong_from_3_on", house((63, 17, 0, 0, 0, 1), bad, events), "3 17")
    case("all_wrong_from_14_on", house((63, 16, 16, 0, 0, 1), bad, events), "14 0")
    case("all_wrong_from_1_on", house((64, 16, 16, 0, 0, 1), bad, events), "1 6")
    case("all_wrong_from_4_on", house((2, 1, 2, 0, 0, 0), bad, events), "4 0 0")
    case("all_wrong_from_5_on", house((2, 1, 2, 33, 9, 0), T_ROWS, events), "5 33")
    case("all_wrong_from_6_on", house((2, 1, 2, 32, 9, 0), T_ROWS, events), "6 9")
    case("all_wrong_from_9_on", house((2, 1, 2, 32, 8, 0), T_ROWS, events), "9 4097")
    case("all_wrong_from_7_on", house((2, 1, 2, 32, 8, 0), T_ROWS, events[:4]), "7 0")


def cases():
    """All cases, each tested against the reader above."""
    for make in (
        good_files,
        length_files,
        check_files,
        kind_files,
        order_files,
        field_files,
        count_files,
        table_files,
        bound_files,
        event_files,
        pair_files,
    ):
        make()
    return CASES


def fault(name, data, expected):
    """What is wrong with a case by itself, or None."""
    try:
        found = read(data, ROW_ROOM, EVENT_ROOM)
    except Refused as refusal:
        found = refusal.text
    return None if found == expected else f"{name}: the reader says {short(found)}, and the case {short(expected)}"


def short(found):
    return found if isinstance(found, str) else f"good, with {len(found[1])} rows and {len(found[2])} events"


if __name__ == "__main__":
    sys.exit(stored.main(sys.argv[1:], __doc__, CRATE, cases, fault, lines))
