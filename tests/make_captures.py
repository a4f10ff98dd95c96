#!/usr/bin/env python3
"""Makes the captures that the program `capturecases` reads, and says what must come of each.

    tests/make_captures.py            writes crates/capturecases/data/, args and stdout
    tests/make_captures.py --check    makes them anew elsewhere and compares; the last line is 'N passed, M failed'

The captures and the two readers below are written from request L1 and share nothing with crates/. Each case names the refusal
that it is there for, or the events that it holds; the importer must come to the same. The captures of tests/captures, which
ordinary tools wrote, are among the cases.
"""

import struct
import sys
from pathlib import Path

import stored

ROOT = Path(__file__).resolve().parent.parent
CRATE = ROOT / "crates" / "capturecases"
TOOLS = ROOT / "tests" / "captures"

MOST = 1048576
# The program's buffer, and what stands in it before.
EVENT_ROOM = 520
MARK = 170
MODULUS = 65521
# Where the program looks by itself.
PLACES = (1, 2, 1048576, 18446744073709551615)


# READING


class Refused(Exception):
    """A refusal: the number and its place."""

    def __init__(self, number, place):
        super().__init__(number, place)
        self.text = f"{number} {place}"


def order_of(data):
    """The byte order of a capture, as struct writes it. Raises Refused where the header is short or wrong."""
    for order in "<>":
        if len(data) >= 24 and struct.unpack(order + "I", data[:4])[0] == 0xA1B2C3D4:
            major, minor = struct.unpack(order + "HH", data[4:8])
            link = struct.unpack(order + "I", data[20:24])[0]
            if (major, minor, link) == (2, 4, 147):
                return order
    raise Refused(15, 0)


def is_event(octet):
    return octet <= 15 or 128 <= octet <= 143


def is_right(order, record):
    return len(record) == 17 and struct.unpack(order + "II", record[8:16]) == (1, 1)


def imported(data, room):
    """The events of a capture. Raises Refused."""
    order = order_of(data)
    records = [data[at : at + 17] for at in range(24, len(data), 17)]
    for index, record in enumerate(records):
        if not is_right(order, record):
            raise Refused(16, index)
    if len(records) > MOST:
        raise Refused(9, len(records))
    events = bytes(record[16] for record in records)
    for index, octet in enumerate(events):
        if not is_event(octet):
            raise Refused(7, index)
    if len(events) > room:
        raise Refused(10, len(events))
    return events


def handed_out(data, place):
    """What a reader at a place hands out: an event, or None at the end. Raises Refused."""
    order = order_of(data)
    at = 24 + 17 * place
    if at >= len(data):
        return None
    record = data[at : at + 17]
    if not is_right(order, record):
        raise Refused(16, place)
    if place >= MOST:
        raise Refused(9, place + 1)
    if not is_event(record[16]):
        raise Refused(7, place)
    return record[16]


# WHAT THE PROGRAM WRITES


def digest(start, room):
    """Of a buffer of marks after these bytes were put at its start."""
    buffer = start + bytes([MARK]) * (room - len(start))
    return sum(i * byte for i, byte in enumerate(buffer, 1)) % MODULUS


def outcome(data, room):
    try:
        events = imported(data, room)
    except Refused as refusal:
        return f"refused {refusal.text} digest {digest(b'', room)}"
    return f"events {len(events)} digest {digest(events, room)}"


def said(data, place):
    """What the reader says at a place, and its place then: an event is passed, and nothing else."""
    try:
        event = handed_out(data, place)
    except Refused as refusal:
        return f"refused {refusal.text} then {place}"
    return f"end then {place}" if event is None else f"event {event} then {place + 1}"


def lines(name, data):
    made = [f"{name} {outcome(data, EVENT_ROOM)}"]
    rooms = []
    try:
        events = len(imported(data, EVENT_ROOM))
        rooms = [events, events - 1] if events else [events]
    except Refused:
        pass
    for room in rooms + [0]:
        made.append(f"{name} in {room} {outcome(data, room)}")
    read = b""
    try:
        while len(read) < EVENT_ROOM and (event := handed_out(data, len(read))) is not None:
            read += bytes([event])
    except Refused:
        pass
    made.append(f"{name} read {len(read)} digest {digest(read, EVENT_ROOM)} {said(data, len(read))}")
    for place in PLACES:
        made.append(f"{name} at {place} {said(data, place)}")
    return made


# WRITING

LITTLE, BIG = "<", ">"
NAMES = {LITTLE: "little", BIG: "big"}
OTHER = {LITTLE: BIG, BIG: LITTLE}
ALL = bytes(range(16)) + bytes(range(128, 144))


def header(order, magic=0xA1B2C3D4, major=2, minor=4, zone=0, figures=0, most=262144, link=147):
    return struct.pack(order + "IHHIIII", magic, major, minor, zone, figures, most, link)


def record(order, octets, captured=1, length=1, seconds=1793592000, part=0):
    return struct.pack(order + "IIII", seconds, part, captured, length) + bytes(octets)


def records(order, octets):
    return b"".join(record(order, [octet], seconds=1793592000 + at, part=at) for at, octet in enumerate(octets))


def capture(order, octets=b""):
    return header(order) + records(order, octets)


def changed(data, place, byte):
    data = bytearray(data)
    data[place] = byte
    return bytes(data)


# THE CASES

CASES = []


def case(name, data, expected):
    """A capture, and what it is there for: the number and place of its refusal, or its events."""
    CASES.append((name, bytes(data), expected))


def each(name, make, expected):
    """The same in both byte orders."""
    for order in (LITTLE, BIG):
        case(f"{NAMES[order]}_{name}", make(order), expected)


def tool_captures():
    """What the importer must make of each capture of tests/captures."""
    expected = {
        "all": ALL,
        "swapped": ALL,
        "none": b"",
        "one": bytes([5]),
        "poll_and_report": bytes([0, 128, 1, 129, 2, 130, 3, 131]),
        "part": ALL[4:20],
        "joined": bytes([5, 0, 128, 1, 129, 2, 130, 3, 131]),
        "two_octets": "16 1",
        "cut": "16 1",
        "cut_and_mended": bytes([0, 1, 128]),
        "ethernet": "15 0",
        "ethernet_mended": bytes([0, 128]),
        "user1": "15 0",
        "octet_10": "7 1",
        "octet_7f": "7 2",
        "octet_90": "7 0",
        "nanoseconds": "15 0",
        "next_generation": "15 0",
    }
    paths = {path.stem: path for path in TOOLS.glob("*.pcap*")}
    if paths.keys() != expected.keys():
        raise ValueError(f"tests/captures: {sorted(paths.keys() ^ expected.keys())}")
    for name, events in expected.items():
        case(f"tool_{name}", paths[name].read_bytes(), events)


def good_captures():
    each("no_records", capture, b"")
    for octet in (0, 15, 128, 143):
        each(f"only_{octet}", lambda order: capture(order, [octet]), bytes([octet]))
    each("all_events", lambda order: capture(order, ALL), ALL)
    each("500_events", lambda order: capture(order, (ALL * 16)[:500]), (ALL * 16)[:500])
    # fields that are not read
    for name, fields in (
        ("zone", {"zone": 0xFFFFFFFF}),
        ("figures", {"figures": 0x01020304}),
        ("most_0", {"most": 0}),
        ("most_1", {"most": 1}),
        ("other_fields", {"zone": 1, "figures": 2, "most": 0xFFFFFFFF}),
    ):
        each(f"header_{name}", lambda order: header(order, **fields) + records(order, [3, 131]), bytes([3, 131]))
    each("times", lambda order: header(order) + record(order, [3], seconds=0xFFFFFFFF, part=0xFFFFFFFF), bytes([3]))


def header_captures():
    case("no_bytes", b"", "15 0")
    for length in (1, 3, 4, 19, 20, 23):
        each(f"header_of_{length}", lambda order: capture(order)[:length], "15 0")
    each("header_of_23_and_no_more_of_a_record", lambda order: header(order)[:23] + record(order, [0]), "15 0")
    for place in (0, 1, 2, 3, 4, 5, 6, 7, 20, 21, 22, 23):
        each(
            f"header_byte_{place}",
            lambda order: changed(capture(order, [1, 129]), place, (header(order)[place] + 1) % 256),
            "15 0",
        )
        each(
            f"header_byte_{place}_high_bit",
            lambda order: changed(capture(order, [1, 129]), place, header(order)[place] ^ 128),
            "15 0",
        )
    for name, fields in (
        ("nanoseconds", {"magic": 0xA1B23C4D}),
        ("modified", {"magic": 0xA1B2CD34}),
        ("magic_0", {"magic": 0}),
        ("version_2_3", {"minor": 3}),
        ("version_4_2", {"major": 4, "minor": 2}),
        ("version_512_4", {"major": 512}),
        ("version_2_1024", {"minor": 1024}),
        ("link_0", {"link": 0}),
        ("link_1", {"link": 1}),
        ("link_146", {"link": 146}),
        ("link_148", {"link": 148}),
        ("link_147_and_256", {"link": 147 + 256}),
        ("link_147_and_65536", {"link": 147 + 65536}),
        ("link_147_in_the_high_byte", {"link": 147 << 24}),
        ("link_147_with_check_bits", {"link": 147 | 0x14000000}),
    ):
        each(name, lambda order: header(order, **fields) + records(order, [0]), "15 0")
    each("pcapng_magic", lambda order: struct.pack(order + "I", 0x0A0D0D0A) + header(order)[4:], "15 0")
    # the magic in one order, and the rest in the other
    each("magic_alone_in_this_order", lambda order: header(order)[:4] + capture(OTHER[order], [0])[4:], "15 0")
    each(
        "link_alone_in_the_other_order",
        lambda order: header(order)[:20] + header(OTHER[order])[20:] + records(order, [0]),
        "15 0",
    )
    each(
        "version_alone_in_the_other_order",
        lambda order: header(order)[:4] + header(OTHER[order])[4:8] + header(order)[8:] + records(order, [0]),
        "15 0",
    )


def record_captures():
    for left in (1, 8, 15, 16):
        each(f"first_record_of_{left}", lambda order: header(order) + record(order, [0])[:left], "16 0")
        each(f"third_record_of_{left}", lambda order: capture(order, [0, 128]) + record(order, [0])[:left], "16 2")
    each("one_byte_too_many", lambda order: capture(order, [0, 128]) + b"\0", "16 2")
    for wrong in (0, 2, 255, 257, 65537, 16777217, 0x01000000, 0xFFFFFFFF):
        each(
            f"captured_{wrong}",
            lambda order: capture(order, [0]) + record(order, [1], captured=wrong) + records(order, [2]),
            "16 1",
        )
        each(
            f"original_{wrong}",
            lambda order: capture(order, [0]) + record(order, [1], length=wrong) + records(order, [2]),
            "16 1",
        )
    each("first_captured_2", lambda order: header(order) + record(order, [1, 2], captured=2, length=2), "16 0")
    each("record_in_the_other_order", lambda order: capture(order, [0]) + record(OTHER[order], [1]), "16 1")
    each("packet_of_no_octets", lambda order: capture(order, [0]) + record(order, [], captured=0, length=0), "16 1")
    each(
        "two_wrong_records",
        lambda order: capture(order, [0]) + record(order, [1], captured=2) + record(order, [1], length=2),
        "16 1",
    )


def octet_captures():
    for octet in (16, 17, 127, 144, 255):
        each(f"octet_{octet}", lambda order: capture(order, [0, octet, 1]), "7 1")
    each("first_octet_64", lambda order: capture(order, [64]), "7 0")
    each("two_wrong_octets", lambda order: capture(order, [0, 128, 200, 100]), "7 2")


def order_captures():
    """Where several things are wrong: the import looks at all records for 16 before it looks at any octet, and the reader does not."""
    each("15_before_16", lambda order: header(order, link=1) + record(order, [1], captured=2), "15 0")
    each("15_before_7", lambda order: header(order, minor=5) + records(order, [99]), "15 0")
    each("16_before_7_in_one_record", lambda order: capture(order, [0]) + record(order, [99], length=2), "16 1")
    each("16_after_7", lambda order: capture(order, [0, 99, 1]) + record(order, [1], captured=2), "16 3")
    each("16_after_7_short", lambda order: capture(order, [99]) + b"\0", "16 1")


def cases():
    for make in (tool_captures, good_captures, header_captures, record_captures, octet_captures, order_captures):
        make()
    return CASES


def fault(name, data, expected):
    """What is wrong with a case by itself, or None."""
    try:
        found = imported(data, EVENT_ROOM)
    except Refused as refusal:
        found = refusal.text
    return None if found == expected else f"{name}: the importer says {found}, and the case {expected}"


if __name__ == "__main__":
    sys.exit(stored.main(sys.argv[1:], __doc__, CRATE, cases, fault, lines))
