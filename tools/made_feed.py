#!/usr/bin/env python3
"""Writes the made-up feed and session files that `decode` is run on, and the lines that it must print.

It shares no code with the project: the bytes are put together here field by field, and the lines
are written out beside them from the same fields; nothing is read back. Run it from the repository's root; it writes
stdin and stdout of crates/decode. With --session-files it also writes data/session and data/broken there, and
prints what `decode - data/session data/broken` must print.
"""
import struct
import sys

SUBSCRIPTION = 11


def message(kind, stamp, number, symbol, tail, length=None, subscription=SUBSCRIPTION, reserved=0):
    """A message: header, number at 8, reserved bytes, symbol at 32, and what stands from 40 on."""
    body = struct.pack(">I", number) + bytes([reserved]) * 20 + symbol.ljust(8, b"\0") + tail
    return struct.pack(">HcBI", length or 8 + len(body), kind, subscription, stamp) + body


def quote(stamp, number, symbol, side, insert, delete, contracts, price, **more):
    return message(b"q", stamp, number, symbol, struct.pack(">xcBBII", side, insert, delete, contracts, price), **more)


def imbalance(stamp, number, symbol, auction, time, contracts, price, total, market, **more):
    tail = struct.pack(">xcHIIII", auction, time, contracts, price, total, market)
    return message(b"i", stamp, number, symbol, tail, **more)


def event(stamp, number, symbol, code, reset=b"C", **more):
    return message(b"v", stamp, number, symbol, b"\0\0" + code + reset, **more)


def packet(number, *messages, kind=b"M", subscription=SUBSCRIPTION):
    body = b"".join(messages)
    return struct.pack(">HcBI", 8 + len(body), kind, subscription, number) + body


def heartbeat(number, *more):
    return packet(number, *more, kind=b"B")


feed = []
lines = []


def say(data, *text):
    """One packet, and the lines for it; {at} is where it stands in the feed."""
    at = sum(len(d) for d in feed)
    feed.append(data)
    lines.extend(t.format(at=at) for t in text)


# the session starts; the reset's number and symbol are not read
say(
    packet(1, event(34_200_000, 7, b"?", b"I", b"R"), quote(34_200_001, 1, b"MSQAJ", b"B", 1, 5, 10, 135_000)),
    "packet {at} M subscription 11 number 1",
    "  8 reset stamp 34200000",
    "  52 quote stamp 34200001 number 1 symbol MSQAJ side B insert 1 delete 5 contracts 10 price 135000",
)
# every field at its largest, reserved bytes that are not null, a symbol of eight bytes
say(
    packet(2, quote(4_294_967_295, 4_294_967_294, b"!ABCDEF~", b"S", 5, 1, 4_294_967_295, 4_294_967_295, reserved=255)),
    "packet {at} M subscription 11 number 2",
    "  8 quote stamp 4294967295 number 4294967294 symbol !ABCDEF~ side S insert 5 delete 1 contracts 4294967295 price 4294967295",
)
say(heartbeat(2), "packet {at} B subscription 11 number 2")
say(heartbeat(0), "packet {at} B subscription 11 number 0")
# the four auctions
say(
    packet(
        3,
        imbalance(1, 1, b"A", b"O", 0, 0, 0, 0, 0),
        imbalance(2, 2, b"A", b"M", 930, 20, 12_500, 7, 3),
        imbalance(3, 3, b"A", b"H", 1299, 1, 2, 3, 4),
        imbalance(4, 4, b"A", b"C", 2400, 4_294_967_295, 1, 1, 1),
    ),
    "packet {at} M subscription 11 number 3",
    "  8 imbalance stamp 1 number 1 symbol A auction O time 0 contracts 0 price 0 total 0 market 0",
    "  68 imbalance stamp 2 number 2 symbol A auction M time 930 contracts 20 price 12500 total 7 market 3",
    "  128 imbalance stamp 3 number 3 symbol A auction H time 1299 contracts 1 price 2 total 3 market 4",
    "  188 imbalance stamp 4 number 4 symbol A auction C time 2400 contracts 4294967295 price 1 total 1 market 1",
)
# the ten events of a series
codes = b"ABCLNOSTUX"
say(
    packet(4, *[event(100, i + 1, b"MSQAJ", bytes([c])) for i, c in enumerate(codes)]),
    "packet {at} M subscription 11 number 4",
    *[f"  {8 + 44 * i} event stamp 100 number {i + 1} symbol MSQAJ code {chr(c)}" for i, c in enumerate(codes)],
)
# the four events of an underlying, whose number and symbol are not read
say(
    packet(5, *[event(200, 0, b"", bytes([c])) for c in b"osux"]),
    "packet {at} M subscription 11 number 5",
    *[f"  {8 + 44 * i} underlying stamp 200 code {chr(c)}" for i, c in enumerate(b"osux")],
)
# the largest packet: 186 events of 44 bytes
say(
    packet(6, *[event(300, i + 1, b"Z", b"L") for i in range(186)]),
    "packet {at} M subscription 11 number 6",
    *[f"  {8 + 44 * i} event stamp 300 number {i + 1} symbol Z code L" for i in range(186)],
)
# refused: the type, the number
say(packet(7, event(1, 1, b"A", b"A"), kind=b"N"), "packet {at} refused 3")
say(packet(0, event(1, 1, b"A", b"A")), "packet {at} refused 4")
say(packet(4_294_967_295, event(1, 1, b"A", b"A")), "packet {at} refused 4")
say(heartbeat(4_294_967_295), "packet {at} refused 4")
# refused: no message, a heartbeat with one byte more
say(packet(8), "packet {at} refused 5 at 8")
say(heartbeat(8, b"\0"), "packet {at} refused 5 at 8")
# another subscription is a packet of its own; inside a packet it breaks the message
say(
    packet(9, event(1, 1, b"A", b"A", subscription=12), subscription=12),
    "packet {at} M subscription 12 number 9",
    "  8 event stamp 1 number 1 symbol A code A",
)
good = event(1, 1, b"A", b"A")
good_line = "  8 event stamp 1 number 1 symbol A code A"
broken = [
    event(1, 1, b"A", b"A", subscription=12),
    quote(1, 1, b"A", b"B", 6, 1, 1, 1),
    quote(1, 1, b"A", b"B", 1, 0, 1, 1),
    quote(1, 1, b"A", b"b", 1, 1, 1, 1),
    quote(1, 0, b"A", b"B", 1, 1, 1, 1),
    quote(1, 4_294_967_295, b"A", b"B", 1, 1, 1, 1),
    quote(1, 1, b"A\0B", b"B", 1, 1, 1, 1),
    quote(1, 1, b"A B", b"B", 1, 1, 1, 1),
    quote(1, 1, b"", b"B", 1, 1, 1, 1),
    quote(1, 1, b"A", b"B", 1, 1, 1, 1, length=51),
    imbalance(1, 1, b"A", b"O", 2401, 1, 1, 1, 1),
    imbalance(1, 1, b"A", b"o", 1, 1, 1, 1, 1),
    event(1, 1, b"A", b"I", b"C"),
    event(1, 1, b"A", b"A", b"R"),
    event(1, 1, b"A", b"D"),
    message(b"x", 1, 1, b"A", b"\0\0AC"),
    b"\0\x2cv",
]
for n, bad in enumerate(broken):
    # what follows a broken message is not looked at
    say(packet(10 + n, good, bad, good), f"packet {{at}} M subscription 11 number {10 + n}", good_line, "  refused 5 at 52")
# a length that cannot be right ends the feed, also where so many bytes are there: what follows is not printed
say(struct.pack(">HcBI", 8_193, b"M", SUBSCRIPTION, 99) + event(300, 1, b"Z", b"L") * 186 + b"\0", "packet {at} refused 1")
say(heartbeat(1))

# a session file: the packets first, then the symbols, then the packet offsets; an entry may come twice
entries = []


def enter(data, *text):
    """One entry of the file, and the lines for it; {at} is its index from 1."""
    entries.append(data)
    lines.extend(t.format(at=len(entries)) for t in text)


def session_file(kind, symbols, packets):
    at = [16 + sum(len(q) for q in packets[:i]) for i in range(len(packets))]
    at.append(at[0])
    names = 16 + sum(len(q) for q in packets)
    header = struct.pack(">IIHBcI", len(at), names + 8 * len(symbols), len(symbols), SUBSCRIPTION, kind, names)
    return header + b"".join(packets) + b"".join(x.ljust(8, b"\0") for x in symbols) + struct.pack(f">{len(at)}I", *at)


feed_lines = len(lines)
lines.extend(["file subscription 11 kind I packets 6 symbols 2", "symbol MSQAJ", "symbol !ABCDEF~"])
first = packet(1, event(34_200_000, 0, b"", b"I", b"R"), imbalance(5, 1, b"MSQAJ", b"C", 1600, 1, 2, 3, 4))
first_lines = [
    "packet {at} M subscription 11 number 1",
    "  8 reset stamp 34200000",
    "  52 imbalance stamp 5 number 1 symbol MSQAJ auction C time 1600 contracts 1 price 2 total 3 market 4",
]
enter(first, *first_lines)
enter(heartbeat(1), "packet {at} B subscription 11 number 1")
enter(packet(2, event(1, 1, b"A", b"A", subscription=12), subscription=12), "packet {at} M subscription 12 number 2", good_line)
enter(packet(3, good, kind=b"N"), "packet {at} refused 3")
enter(packet(4, good, broken[0]), "packet {at} M subscription 11 number 4", good_line, "  refused 5 at 52")
session = session_file(b"I", [b"MSQAJ", b"!ABCDEF~"], entries)
enter(first, *first_lines)
# one whose second symbol is the first once more: it stands 8 bytes behind that
twice = session_file(b"D", [b"MSQAJ", b"MSQAJ"], [heartbeat(1)])
lines.append(f"file refused 13 at {16 + 8 + 8}")

with open("crates/decode/stdin", "wb") as f:
    f.write(b"".join(feed))
with open("crates/decode/stdout", "w", encoding="ascii") as f:
    f.write("".join(line + "\n" for line in lines[:feed_lines]))
if "--session-files" in sys.argv[1:]:
    with open("crates/decode/data/session", "wb") as f:
        f.write(session)
    with open("crates/decode/data/broken", "wb") as f:
        f.write(twice)
    # what `decode - data/session data/broken` prints
    sys.stdout.write("".join(line + "\n" for line in lines))
