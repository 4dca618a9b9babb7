#!/usr/bin/env python3
"""An independent reader and writer of telemetry frames, and the interpreter of scripts of cases.

    python3 tests/model.py < crates/vectors/stdin    what crates/vectors/stdout must be
    python3 tests/model.py --self-check              the model against published values and binascii

tests/vectors.txt is a script too: tests/vectors_test.py and rust/trial play it over the boundary and here. A line that is
no case ends the model with an error.

It is written from the scope document's rules alone and shares no code, table or definition with
the crates. It is plain and slow: a frame is taken apart as one string of bits, the check is a long
division of bits, and the packet starts of a written frame are marked octet by octet.
"""
import sys

FRESH = {"heard": False, "last": 0, "state": "hunting", "number": 0}
STATES = ["hunting", "gathering", "skipping"]
FILLER = bytes.fromhex("07FFC000000055")
LARGEST = 4096
PART = 4096


# ---------------------------------------------------------------- error control

def check(octets):
    """The remainder of X^16 M(X) + X^n L(X) divided by X^16 + X^12 + X^5 + 1, L being sixteen ones."""
    bits = []
    for octet in octets:
        bits += [octet >> 7 - i & 1 for i in range(8)]
    n = len(bits)
    bits += [0] * 16
    for i in range(16):
        bits[i] ^= 1
    for i in range(n):
        if bits[i]:
            bits[i] = 0
            bits[i + 4] ^= 1
            bits[i + 11] ^= 1
            bits[i + 16] ^= 1
    remainder = 0
    for bit in bits[n:]:
        remainder = remainder * 2 + bit
    return remainder


# ---------------------------------------------------------------- layouts

def fields(octets, widths):
    """Cuts the octets into bit fields, most significant bit first."""
    text = "".join(format(octet, "08b") for octet in octets)
    values = []
    for width in widths:
        values.append(int(text[:width], 2))
        text = text[width:]
    return values


def joined(values, widths):
    text = ""
    for value, width in zip(values, widths):
        text += format(value, "0%db" % width)
    return bytes(int(text[i:i + 8], 2) for i in range(0, len(text), 8))


FRAME_HEADER = [2, 10, 3, 1, 8, 8, 1, 1, 1, 2, 11]
PACKET_HEADER = [3, 1, 1, 11, 2, 14, 16]
HEADER_NAMES = ["spacecraft", "channel", "flagged", "master", "count", "secondary",
                "synchronisation", "order", "segment", "pointer"]


def packet_size(seen):
    """What the first octets of a packet tell."""
    if seen and fields(seen[:1], [3])[0] != 0:
        return "foreign"
    if len(seen) < 6:
        return "wait"
    return fields(seen[:6], PACKET_HEADER)[6] + 7


def is_idle_packet(packet):
    return fields(packet[:6], PACKET_HEADER)[3] == 2047


def row_1(n, spacecraft):
    return not (13 <= n <= 2048 and 0 <= spacecraft <= 1023)


def open_frame(n, spacecraft, error_control, frame):
    """Rows 5 to 12, and the header values, control word, place and size of the data field."""
    if len(frame) != n:
        return 5, None
    if error_control and check(frame) != 0:
        return 6, None
    version, *values = fields(frame[:6], FRAME_HEADER)
    h = dict(zip(HEADER_NAMES, values))
    if version != 0:
        return 7, None
    if h["spacecraft"] != spacecraft:
        return 8, None
    s = 0
    if h["secondary"]:
        secondary_version, length = fields(frame[6:7], [2, 6])
        if secondary_version != 0:
            return 9, None
        s = length + 1
    d = n - 6 - s - (4 if h["flagged"] else 0) - (2 if error_control else 0)
    if d < 1:
        return 10, None
    if h["synchronisation"] == 0 and (h["order"] != 0 or h["segment"] != 3):
        return 11, None
    if h["synchronisation"] == 0 and not h["pointer"] < d and h["pointer"] not in (2046, 2047):
        return 12, None
    h["place"] = 6 + s
    h["size"] = d
    h["word"] = 0
    if h["flagged"]:
        h["word"] = fields(frame[6 + s + d:6 + s + d + 4], [32])[0]
    return 0, h


def open_alone(n, spacecraft, error_control, frame):
    """Row 1, then rows 5 to 12."""
    return (1, None) if row_1(n, spacecraft) else open_frame(n, spacecraft, error_control, frame)


def close_frame(n, spacecraft, error_control, channel, master, count, word, pointer, output):
    """Header, control word and check around a data field that is in its place already."""
    if row_1(n, spacecraft):
        return 1, output
    if channel > 7:
        return 20, output
    if len(output) != n:
        return 25, output
    flagged = 0 if word is None else 1
    header = joined([0, spacecraft, channel, flagged, master, count, 0, 0, 0, 3, pointer % 2048],
                    FRAME_HEADER)
    d = n - 6 - 4 * flagged - (2 if error_control else 0)
    frame = header + output[6:6 + d]
    if flagged:
        frame += joined([word], [32])
    if error_control:
        frame += joined([check(frame)], [16])
    return 0, frame


# ---------------------------------------------------------------- reading

def breaks_rules(channel, part):
    """The rules of a channel's record."""
    state, number = channel["state"], channel["number"]
    if state == "hunting":
        return False
    if not channel["heard"]:
        return True
    if state == "skipping":
        return not 1 <= number <= 65536
    if not 0 <= number <= 4095:
        return True
    held = part[:number]
    if number >= 1 and fields(held[:1], [3])[0] != 0:
        return True
    if number >= 6:
        total = fields(held[:6], PACKET_HEADER)[6] + 7
        return not (total > number and total <= LARGEST)
    return False


def walk(octets, limit):
    """From packet to packet: the whole packets, why the walk ended, and the number that goes with it."""
    packets = []
    at = 0
    while True:
        rest = octets[at:]
        size = packet_size(rest)
        if size == "foreign":
            return packets, "foreign", 0
        if not rest:
            return packets, "exact", 0
        if size == "wait":
            return packets, "cut", len(rest)
        if size > limit:
            return packets, "oversize", size - len(rest)
        if size > len(rest):
            return packets, "cut", len(rest)
        packets.append(rest[:size])
        at += size


class Reading:
    """Steps 1 to 5 for one accepted frame, on one channel and its part of the store."""

    def __init__(self, h, data, channel, part):
        self.h, self.data, self.part = h, data, part
        self.channel = dict(channel)
        self.delivered = []
        self.counts = dict.fromkeys(["gap", "idle", "broken", "disagreement", "foreign", "oversize"], 0)
        self.kind = 3 if h["synchronisation"] else 2 if h["pointer"] == 2046 else 1
        self.steps()

    def under_way(self):
        return (self.channel["state"] == "gathering" and self.channel["number"] >= 1
                or self.channel["state"] == "skipping")

    def be(self, state, number=0):
        self.channel["state"], self.channel["number"] = state, number

    def break_off(self):
        if self.under_way():
            self.counts["broken"] = 1
        self.be("hunting")

    def steps(self):
        channel = self.channel
        if channel["heard"]:
            self.counts["gap"] = (self.h["count"] - channel["last"] - 1) % 256
        channel["heard"] = True
        channel["last"] = self.h["count"]
        if self.counts["gap"] != 0 or self.kind != 1:
            self.break_off()
        if self.kind != 1:
            return
        if channel["state"] != "hunting" and not self.agrees():
            self.counts["disagreement"] = 1
            self.break_off()
        if channel["state"] == "hunting":
            if self.h["pointer"] == 2047:
                return
            self.walk_from(self.h["pointer"])
        elif channel["state"] == "skipping":
            if channel["number"] > len(self.data):
                self.be("skipping", channel["number"] - len(self.data))
            else:
                self.walk_from(channel["number"])
        else:
            self.walk_over(self.part[:channel["number"]] + self.data)

    def agrees(self):
        """Step 3: the pointer is the one that the packet under way calls for."""
        k = self.channel["number"]
        if self.channel["state"] == "skipping" or k == 0:
            end = k
        else:
            size = packet_size(self.part[:k] + self.data)
            end = None if size == "wait" else size - k
        if end is not None and end < len(self.data):
            return self.h["pointer"] == end
        return self.h["pointer"] == 2047

    def walk_from(self, place):
        self.walk_over(self.data[place:])

    def walk_over(self, octets):
        packets, why, number = walk(octets, LARGEST)
        for packet in packets:
            if is_idle_packet(packet):
                self.counts["idle"] += 1
            else:
                self.delivered.append(packet)
        if why == "foreign":
            self.counts["foreign"] = 1
            self.be("hunting")
        elif why == "oversize":
            # A packet that is held with six octets or more is none of these: its total is known and fits.
            self.counts["oversize"] = 1
            self.be("skipping", number)
        elif why == "exact":
            self.be("gathering")
        else:
            self.be("gathering", number)
            self.part = octets[len(octets) - number:] + self.part[number:]


def read_frame(n, spacecraft, error_control, channels, store, output, frame):
    """All twelve rows, then the steps. Gives the number, and for an accepted frame header and reading."""
    if row_1(n, spacecraft):
        return 1, None, None
    if len(store) != 32768:
        return 2, None, None
    if len(output) < 6144:
        return 3, None, None
    for v in range(8):
        if breaks_rules(channels[v], store[PART * v:PART * v + PART]):
            return 4, None, None
    number, h = open_frame(n, spacecraft, error_control, frame)
    if number:
        return number, None, None
    v = h["channel"]
    data = frame[h["place"]:h["place"] + h["size"]]
    return 0, h, Reading(h, data, channels[v], store[PART * v:PART * v + PART])


# ---------------------------------------------------------------- writing

def boundaries(run):
    """The packet boundaries of a chain, the run's end among them; None where the run is no chain."""
    places = [0]
    while places[-1] < len(run):
        size = packet_size(run[places[-1]:])
        if size in ("foreign", "wait") or places[-1] + size > len(run):
            return None
        places.append(places[-1] + size)
    return places


def write_frame(n, spacecraft, error_control, channel, master, count, word, run, offset, left, output):
    """The number, what comes back (offset, left-over, both counts), and the output afterwards."""
    given = (offset, left, master, count)
    starts = boundaries(run)
    for number, cause in [(1, row_1(n, spacecraft)),
                          (20, channel > 7),
                          (21, len(run) > 65536),
                          (22, starts is None),
                          (23, offset > len(run)),
                          (24, left > 6 or left != 0 and offset not in (0, len(run))),
                          (25, len(output) != n)]:
        if cause:
            return number, given, output
    d = n - 6 - (0 if word is None else 4) - (2 if error_control else 0)
    # What would come, octet by octet, each with whether a packet header starts there.
    tail = [(octet, False) for octet in FILLER[7 - left:]]
    placed = tail[:d]
    new_left = len(tail) - len(placed)
    taken = run[offset:offset + d - len(placed)]
    first_octets = set(starts[:-1])
    placed += [(octet, offset + i in first_octets) for i, octet in enumerate(taken)]
    room = d - len(placed)
    idle = not placed
    if idle:
        placed = [(0x55, False)] * d
    elif room >= 7:
        packet = joined([0, 0, 0, 2047, 3, 0, room - 7], PACKET_HEADER) + b"\x55" * (room - 6)
        placed += [(octet, i == 0) for i, octet in enumerate(packet)]
    elif room >= 1:
        placed += [(octet, i == 0) for i, octet in enumerate(FILLER[:room])]
        new_left = 7 - room
    pointer = 2046 if idle else next((i for i, (_, start) in enumerate(placed) if start), 2047)
    field = bytes(octet for octet, _ in placed)
    assert len(field) == d
    number, frame = close_frame(n, spacecraft, error_control, channel, master, count, word, pointer,
                                bytes(6) + field + bytes(n - 6 - d))
    assert number == 0
    return 0, (offset + len(taken), new_left, (master + 1) % 256, (count + 1) % 256), frame


# ---------------------------------------------------------------- the script

class Malformed(Exception):
    pass


ROOM = 70000          # octets of an argument, and of the run
STORE_ROOM = 32769    # octets of which a store can be lent
OUTPUT_ROOM = 8192    # octets of which an output can be lent
FRAME_ROOM = 4096     # octets of which an output can be lent to a writing
BLANK = 0xEE          # what every output holds before a call


def number(word):
    if not word or any(c not in "0123456789" for c in word) or int(word) > 2**32 - 1:
        raise Malformed
    return int(word)


def octets(words):
    """Hex digits in pairs; a word *N has the octet before it stand N times in all."""
    found = bytearray()
    for word in words:
        if word.startswith("*"):
            times = number(word[1:])
            if not found or times < 1:
                raise Malformed
            if len(found) + times - 1 > ROOM:
                raise Malformed
            found += found[-1:] * (times - 1)
        else:
            if len(word) % 2 or any(c not in "0123456789ABCDEF" for c in word):
                raise Malformed
            if len(found) + len(word) // 2 > ROOM:
                raise Malformed
            found += bytes.fromhex(word)
    return bytes(found)


def spelt(value):
    """Octets in hex; more than 64 as the first 40, the last 16, their number and their check."""
    if not value:
        return "-"
    if len(value) <= 64:
        return value.hex().upper()
    return "%s~%s~%d~%04X" % (value[:40].hex().upper(), value[-16:].hex().upper(), len(value), check(value))


def stripped(output):
    return output.rstrip(bytes([BLANK]))


def line(name, *pairs):
    return " ".join([name] + ["%s=%s" % (key, value) for key, value in pairs])


# Each command: how many numbers it takes, and whether octets follow them. A flag is 0 for no, anything else for yes.
#
#   crc OCTETS                              their syndrome
#   open N SPACECRAFT EC OCTETS             what a frame opens to; EC: error control is set up
#   close N SPACECRAFT EC CHANNEL MASTER COUNT HAS_WORD WORD POINTER OCTETS
#                                           the octets closed as a frame around the data field in them
#   gap COUNT LAST                          frames missing between the two counts
#   size OCTETS                             what the first octets of a packet tell
#   header OCTETS                           the values of a packet header
#   chain OCTETS                            whether they are a chain of whole packets
#   distance OFFSET OCTETS                  from an offset into a chain to the next boundary
#   walk FROM LIMIT OCTETS                  from packet to packet
#   fresh                                   a fresh record, a store of zeros, and as much of store and output as a reader wants
#   paint OCTET                             the store filled
#   lend STORE OUTPUT                       how much of the store and of the output the readings are lent
#   channel V HEARD LAST STATE SIZE         a channel of the record; STATE: 0 hunting, 1 gathering, 2 skipping
#   hold V OCTETS                           octets at the start of a channel's part of the store
#   read N SPACECRAFT EC OCTETS             one frame through the reader, with the record and the store that are kept
#   busy                                    the busy mask of the record, its ones, the lowest channel
#   run OCTETS                              the run of packets
#   runfill TOTAL COUNT                     COUNT packets of TOTAL octets as the run
#   write N SPACECRAFT EC CHANNEL MASTER COUNT HAS_WORD WORD OFFSET LEFT_OVER OUTPUT
#                                           one frame from the run, into OUTPUT octets
#   again HAS_WORD WORD                     the next frame, from what the last writing gave back
#   back                                    the frame that was written last, read under the set-up that it was written for
COMMANDS = {"crc": (0, True), "open": (3, True), "close": (9, True), "gap": (2, False),
            "size": (0, True), "header": (0, True), "chain": (0, True), "distance": (1, True), "walk": (2, True),
            "fresh": (0, False), "paint": (1, False), "lend": (2, False), "channel": (5, False),
            "hold": (1, True), "read": (3, True), "busy": (0, False), "run": (0, True),
            "runfill": (2, False), "write": (11, False), "again": (2, False), "back": (0, False)}


def parsed(text):
    """A line's command and its arguments: numbers, then octets."""
    name, *words = text.split(" ")
    if name not in COMMANDS:
        raise Malformed
    wanted, has_octets = COMMANDS[name]
    if len(words) < wanted or len(words) > wanted and not has_octets:
        raise Malformed
    arguments = [number(word) for word in words[:wanted]]
    return name, arguments + [octets(words[wanted:])] if has_octets else arguments


class Script:
    """What is kept from line to line. Of the last line: `answer` is the words of what it answered, a refusal's number or 0
    first, and `output` the octets that it was lent to write to, afterwards."""

    def __init__(self):
        self.fresh()
        self.run = b""
        self.written = b""
        self.set_up = (0, 0, 0)
        self.channel_written = 0
        self.place = (0, 0, 0, 0)
        self.lent_frame = 0

    def fresh(self):
        self.channels = [dict(FRESH) for _ in range(8)]
        self.store = bytes(STORE_ROOM)
        self.lent_store = 32768
        self.lent_output = 6144

    def interpret(self, text):
        """What a line prints."""
        self.answer, self.output = [], b""
        if text == "" or text.startswith("#"):
            return text
        name, arguments = parsed(text)
        return getattr(self, "do_" + name)(*arguments)

    def do_crc(self, message):
        self.answer = [check(message)]
        return line("crc", ("syndrome", "%04x" % self.answer[0]))

    def do_open(self, n, spacecraft, error_control, frame):
        code, h = open_alone(n, spacecraft, error_control, frame)
        names = HEADER_NAMES + ["word", "place", "size"]
        self.answer = [code] + [h[name] if h else 0 for name in names]
        return line("open", *zip(["number"] + names, self.answer))

    def do_close(self, n, spacecraft, error_control, channel, master, count, has_word, word, pointer, output):
        if master > 255 or count > 255:
            raise Malformed
        code, self.output = close_frame(n, spacecraft, error_control, channel, master, count,
                                        word if has_word else None, pointer, output)
        self.answer = [code]
        return line("close", ("number", code), ("output", spelt(self.output)))

    def do_gap(self, count, last):
        if count > 255 or last > 255:
            raise Malformed
        return line("gap", ("missing", (count - last - 1) % 256))

    def do_size(self, seen):
        size = packet_size(seen)
        return line("size", ("tells", size if size in ("wait", "foreign") else "total"),
                    ("total", 0 if size in ("wait", "foreign") else size))

    def do_header(self, seen):
        if len(seen) < 6:
            return "header outside"
        *values, length = fields(seen[:6], PACKET_HEADER)
        names = ["version", "type", "secondary", "application", "grouping", "sequence"]
        return line("header", *zip(names, values), ("total", length + 7))

    def do_chain(self, run):
        return line("chain", ("whole", 0 if boundaries(run) is None else 1))

    def do_distance(self, offset, run):
        places = boundaries(run)
        if places is None or offset > len(run):
            return "distance outside"
        return line("distance", ("octets", min(p - offset for p in places if p >= offset)))

    def do_walk(self, start, limit, field):
        if start > len(field) or len(field) > limit or len(field) - start > OUTPUT_ROOM:
            return "walk outside"
        packets, why, size = walk(field[start:], limit)
        wanted = [packet for packet in packets if not is_idle_packet(packet)]
        handed = b"".join(wanted)
        output = handed + bytes([BLANK]) * (OUTPUT_ROOM - len(handed))
        return line("walk", ("end", why), ("number", size), ("delivered", len(wanted)),
                    ("idle", len(packets) - len(wanted)), ("filled", len(handed)),
                    ("octets", handed.hex()), ("check", "%04x" % check(output)))

    def do_fresh(self):
        self.fresh()
        return "fresh"

    def do_paint(self, value):
        if value > 255:
            raise Malformed
        self.store = bytes([value]) * STORE_ROOM
        return line("paint", ("octet", value))

    def do_lend(self, store, output):
        if store > STORE_ROOM or output > OUTPUT_ROOM:
            raise Malformed
        self.lent_store, self.lent_output = store, output
        return line("lend", ("store", store), ("output", output))

    def do_channel(self, v, heard, last, state, size):
        if v > 7 or last > 255 or state > 2:
            raise Malformed
        self.channels[v] = {"heard": heard != 0, "last": last, "state": STATES[state],
                            "number": size if state else 0}
        return line("channel", ("channel", v), *self.told(v))

    def told(self, v):
        c = self.channels[v]
        return [("heard", int(c["heard"])), ("last", c["last"]), ("state", c["state"]), ("size", c["number"])]

    def do_hold(self, v, held):
        if v > 7 or len(held) > PART:
            raise Malformed
        self.store = self.store[:PART * v] + held + self.store[PART * v + len(held):]
        return line("hold", ("channel", v), ("octets", spelt(held)))

    def do_read(self, n, spacecraft, error_control, frame):
        lent, beyond = self.store[:self.lent_store], self.store[self.lent_store:]
        output = bytes([BLANK]) * OUTPUT_ROOM
        channels_before, store_before = [dict(c) for c in self.channels], self.store
        code, h, reading = read_frame(n, spacecraft, error_control, self.channels, lent,
                                      output[:self.lent_output], frame)
        values = [0] * 19
        v = k = 0
        if reading:
            v = h["channel"]
            handed = b"".join(reading.delivered)
            output = handed + output[len(handed):]
            self.channels[v] = reading.channel
            self.store = lent[:PART * v] + reading.part + lent[PART * v + PART:] + beyond
            k = reading.channel["number"] if reading.channel["state"] == "gathering" else 0
            counts = reading.counts
            values = ([reading.kind] + [h[name] for name in HEADER_NAMES]
                      + [h["word"], counts["gap"], len(reading.delivered)]
                      + [counts[name] for name in ("idle", "broken", "disagreement", "foreign", "oversize")])
        names = (["kind"] + HEADER_NAMES
                 + ["word", "gap", "delivered", "idle", "broken", "disagreement", "foreign", "oversize"])
        self.answer, self.output = [code] + values, output
        pairs = [("number", code)] + list(zip(names, values)) + [("octets", spelt(stripped(output)))]
        held = range(PART * v, PART * v + k) if reading else range(0)
        strays = sum(1 for i in range(STORE_ROOM) if self.store[i] != store_before[i] and i not in held)
        if reading:
            pairs += self.told(v) + [("held", spelt(self.store[PART * v:PART * v + k]))]
        others = sum(1 for w in range(8)
                     if self.channels[w] != channels_before[w] and not (reading and w == v))
        return line("read", *pairs, ("others", others), ("strays", strays))

    def do_busy(self):
        busy = [v for v in range(8) if self.channels[v]["state"] == "skipping"
                or self.channels[v]["state"] == "gathering" and self.channels[v]["number"] >= 1]
        self.answer = [sum(2**v for v in busy), len(busy), min(busy, default=8)]
        return line("busy", *zip(["mask", "ones", "lowest"], self.answer))

    def do_run(self, run):
        self.run = run
        return line("run", ("length", len(run)))

    def do_runfill(self, total, count):
        """Packets of application 1, numbered in order; a body octet is its place in the run modulo 256."""
        if not 7 <= total <= 65542 or total * count > ROOM:
            raise Malformed
        run = b""
        for i in range(count):
            run += joined([0, 0, 0, 1, 3, i % 16384, total - 7], PACKET_HEADER)
            run += bytes((len(run) + j) % 256 for j in range(total - 6))
        return self.do_run(run).replace("run", "runfill", 1)

    def do_write(self, n, spacecraft, error_control, channel, master, count, has_word, word, offset, left, lent):
        if master > 255 or count > 255 or lent > FRAME_ROOM:
            raise Malformed
        self.set_up, self.channel_written, self.lent_frame = (n, spacecraft, error_control), channel, lent
        self.place = (offset, left, master, count)
        return self.next_frame("write", has_word, word)

    def do_again(self, has_word, word):
        return self.next_frame("again", has_word, word)

    def next_frame(self, name, has_word, word):
        offset, left, master, count = self.place
        code, self.place, self.written = write_frame(
            *self.set_up, self.channel_written, master, count, word if has_word else None,
            self.run, offset, left, bytes([BLANK]) * self.lent_frame)
        self.answer, self.output = [code, *self.place], self.written
        return line(name, ("number", code), *zip(["offset", "left", "master", "count"], self.place),
                    ("output", spelt(self.written)))

    def do_back(self):
        return self.do_read(*self.set_up, self.written).replace("read", "back", 1)


# ---------------------------------------------------------------- self-check

def self_check():
    import binascii
    import random
    for message, value in [("313233343536373839", 0x29B1), ("0000", 0x1D0F), ("000000", 0xCC9C),
                           ("ABCDEF01", 0x04A2), ("1456F89A0001", 0x7FD5), ("", 0xFFFF)]:
        assert check(bytes.fromhex(message)) == value, message
    rng = random.Random(1)
    for length in list(range(40)) + [255, 256, 2046, 4096]:
        message = rng.randbytes(length)
        value = check(message)
        assert value == binascii.crc_hqx(message, 0xFFFF), length
        assert check(message + value.to_bytes(2, "big")) == 0, length
    bench = (20, 171, 0)
    b1 = bytes.fromhex("0AB6090418000123C0050001DEAD07FFC0000000")
    b2 = bytes.fromhex("0AB60A05180155" + "07FFC0000006" + "55" * 7)
    b3 = bytes.fromhex("0AB60B061FFE" + "55" * 14)
    run = bytes.fromhex("0123C0050001DEAD")
    blank = bytes([BLANK]) * 20
    assert write_frame(*bench, 3, 9, 4, None, run, 0, 0, blank) == (0, (8, 1, 10, 5), b1)
    assert write_frame(*bench, 3, 10, 5, None, b"", 0, 1, blank) == (0, (0, 0, 11, 6), b2)
    assert write_frame(*bench, 3, 11, 6, None, b"", 0, 0, blank) == (0, (0, 0, 12, 7), b3)
    print("self-check: ok")


def main():
    if sys.argv[1:] == ["--self-check"]:
        self_check()
        return
    script = Script()
    lines = sys.stdin.buffer.read().decode("ascii").split("\n")
    if lines[-1] == "":
        lines.pop()
    for place, text in enumerate(lines, 1):
        try:
            print(script.interpret(text))
        except Malformed:
            sys.exit("model: line %d is no case: %s" % (place, text))


if __name__ == "__main__":
    main()
