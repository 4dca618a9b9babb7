#!/usr/bin/env python3
"""Tests of scowdeck.py over the shared library: python3 python/test_scowdeck.py

What must come out is taken from the paper, from binascii, from the sender that a test plays, or from
the independent model in tests/model.py, never from the library.
"""
import binascii
import collections
import contextlib
import ctypes
import doctest
import importlib.util
import io
import itertools
import pathlib
import pickle
import random
import re
import struct
import sys
import textwrap
import unittest

sys.dont_write_bytecode = True
HERE = pathlib.Path(__file__).resolve().parent
sys.path.insert(0, str(HERE))
import scowdeck  # noqa: E402
from scowdeck import Busy, Desk, Kind, LoadError, Opened, Place, Refused, close_frame, open_frame, syndrome  # noqa: E402


def load_tests(loader, tests, pattern):
    tests.addTests(doctest.DocTestSuite(scowdeck))
    return tests


def load_model():
    """tests/model.py as a module. It interprets its standard input when it is loaded: an empty one."""
    spec = importlib.util.spec_from_file_location("model", HERE.parent / "tests" / "model.py")
    model = importlib.util.module_from_spec(spec)
    kept = sys.stdin, sys.argv
    sys.stdin, sys.argv = io.TextIOWrapper(io.BytesIO(b"")), ["model.py"]
    try:
        spec.loader.exec_module(model)
    finally:
        sys.stdin, sys.argv = kept
    return model


def packet(total, application=5, version=0, sequence=0, rng=None):
    body = rng.randbytes(total - 6) if rng else bytes(total - 6)
    return struct.pack(">HHH", version << 13 | application, 0xC000 | sequence % 16384, total - 7) + body


RUN = bytes.fromhex("0123C0050001DEAD")
B1 = bytes.fromhex("0AB6090418000123C0050001DEAD07FFC0000000")
B2 = bytes.fromhex("0AB60A05180155" + "07FFC0000006" + "55" * 7)
B3 = bytes.fromhex("0AB60B061FFE" + "55" * 14)


def bench():
    return Desk(length=20, spacecraft=171)


class ErrorControl(unittest.TestCase):
    def test_published(self):
        for message, value in [(b"123456789", 0x29B1), (b"", 0xFFFF), (bytes(2), 0x1D0F), (bytes(3), 0xCC9C),
                               (bytes.fromhex("ABCDEF01"), 0x04A2), (bytes.fromhex("1456F89A0001"), 0x7FD5)]:
            self.assertEqual(syndrome(message), value, message)

    def test_against_binascii(self):
        rng = random.Random(1)
        lengths = list(range(600)) + [rng.randrange(600, 9000) for _ in range(300)] + [65536, 1 << 20]
        for length in lengths:
            message = rng.randbytes(length)
            value = binascii.crc_hqx(message, 0xFFFF)
            self.assertEqual(syndrome(message), value, length)
            self.assertEqual(syndrome(message + value.to_bytes(2, "big")), 0, length)

    def test_every_single_octet(self):
        for octet in range(256):
            for message in (bytes([octet]), bytes([octet, 0]), bytes([255, octet])):
                self.assertEqual(syndrome(message), binascii.crc_hqx(message, 0xFFFF))

    def test_kinds_of_octets(self):
        for octets in (b"123456789", bytearray(b"123456789"), memoryview(b"0123456789")[1:]):
            self.assertEqual(syndrome(octets), 0x29B1)
        for other in (9, "123456789", None, [1, 2]):
            self.assertRaises(TypeError, syndrome, other)


class Bench(unittest.TestCase):
    def test_written(self):
        desk = bench()
        frame, place = desk.write(3, RUN, Place(master_count=9, channel_count=4))
        self.assertEqual((frame, place), (B1, Place(8, 1, 10, 5)))
        frame, place = desk.write(3, b"", place._replace(offset=0))
        self.assertEqual((frame, place), (B2, Place(0, 0, 11, 6)))
        frame, place = desk.write(3, b"", place)
        self.assertEqual((frame, place), (B3, Place(0, 0, 12, 7)))

    def test_read(self):
        desk = bench()
        first, second, third = desk.read(B1), desk.read(bytearray(B2)), desk.read(memoryview(B3))
        self.assertEqual(first, scowdeck.Report(Kind.PACKETS, 171, 3, 9, 4, False, False, False, 3, 0, None, 0,
                                                (RUN,), 0, 0, 0, 0, 0))
        self.assertEqual((first.delivered, second.packets, second.idle), (1, (), 2))
        self.assertEqual((third.kind, third.gap, third.broken), (Kind.IDLE, 0, 0))

    def test_read_without_the_second(self):
        desk = bench()
        desk.read(B1)
        self.assertEqual(desk.busy(), Busy(8, 1, 3))
        report = desk.read(B3)
        self.assertEqual((report.kind, report.gap, report.broken), (Kind.IDLE, 1, 1))
        self.assertEqual(desk.busy(), Busy(0, 0, 8))

    def test_gap(self):
        desk = bench()
        desk.read(B3[:3] + bytes([254]) + B3[4:])
        self.assertEqual(desk.read(B1[:3] + bytes([1]) + B1[4:]).gap, 2)
        self.assertEqual(desk.read(B1[:3] + bytes([1]) + B1[4:]).gap, 255)

    def test_pointer(self):
        self.assertEqual(refused(bench().read, B1[:5] + bytes([14]) + B1[6:]), 12)
        self.assertEqual(bench().read(B1[:5] + bytes([13]) + B1[6:]).pointer, 13)

    def test_set_up(self):
        for length in (12, 2049):
            self.assertEqual(refused(Desk, length, 171), 1)
        for length in (13, 2048):
            Desk(length, 171)

    def test_most(self):
        packets = [packet(7, sequence=i) for i in range(293)]
        octets = b"".join(packets)
        desk = Desk(2048, 171)
        desk.read(B1[:5] + b"\0" + packet(2036) + octets[:6])
        report = desk.read(B1[:3] + bytes([5, 0x18, 1]) + octets[6:2048])
        self.assertEqual(report.packets, tuple(packets[:292]))


def refused(call, *arguments, **named):
    """The number of the refusal, or 0."""
    try:
        call(*arguments, **named)
    except Refused as refusal:
        assert refusal.words == scowdeck.WORDS[refusal.number] and str(refusal.number) in str(refusal)
        return refusal.number
    return 0


class Refusals(unittest.TestCase):
    def check(self, desk, number, frame):
        before = desk.save()
        self.assertEqual(refused(desk.read, frame), number)
        self.assertEqual(desk.save(), before)

    def test_reading(self):
        desk = bench()
        desk.read(B1)

        def edited(place, value, frame=B2):
            return frame[:place] + bytes([value]) + frame[place + 1:]

        for number, frame in [(5, b""), (5, B2[:-1]), (5, B2 + b"\0"), (7, edited(0, 0x4A)), (8, edited(1, 0xC6)),
                              (9, edited(6, 0x40, edited(4, 0x98))), (10, edited(6, 0x3F, edited(4, 0x98))),
                              (11, edited(4, 0x38)), (11, edited(4, 0x10)), (12, edited(5, 14))]:
            self.check(desk, number, frame)
        self.assertEqual(desk.read(B2).idle, 2)

    def test_damaged(self):
        desk = Desk(64, 5, error_control=True)
        frame, _ = desk.write(1, packet(40))
        for bit in range(8 * 64):
            damaged = bytearray(frame)
            damaged[bit // 8] ^= 128 >> bit % 8
            self.check(desk, 6, bytes(damaged))
        self.assertEqual(desk.read(frame).delivered, 1)

    def test_writing(self):
        desk, run = bench(), RUN + RUN
        for number, channel, octets, place in [
                (20, 8, run, Place()), (21, 3, bytes(65537), Place()), (22, 3, run[:-1], Place()),
                (22, 3, b"\x20" + run[1:], Place()), (23, 3, run, Place(offset=17)),
                (24, 3, run, Place(left_over=7)), (24, 3, run, Place(offset=8, left_over=1)),
                (0, 3, run, Place(offset=8)), (0, 3, run, Place(offset=16, left_over=6))]:
            self.assertEqual(refused(desk.write, channel, octets, place), number)

    def test_numbers_of_any_size(self):
        """Nothing is cut to 32 bits on the way in."""
        for far in (-1, 2**32 + 20, 2**64 + 20, -2**40):
            self.assertEqual(refused(Desk, far, 171), 1)
            self.assertEqual(refused(Desk, 20, far), 1)
            self.assertEqual(refused(bench().write, far, RUN), 20)
            self.assertEqual(refused(bench().write, 3, RUN, Place(offset=far)), 23)
            self.assertEqual(refused(bench().write, 3, RUN, Place(left_over=far)), 24)
            self.assertRaises(ValueError, bench().write, 3, RUN, Place(), far * 2**12)
            self.assertRaises(ValueError, bench().write, 3, RUN, Place(master_count=far))
            self.assertRaises(ValueError, bench().write, 3, RUN, Place(channel_count=far))
        self.assertRaises(TypeError, bench().read, 20)
        self.assertRaises(TypeError, bench().read, "text")

    def test_kinds_of_numbers(self):
        """What is no whole number, or no truth value, is a TypeError that names the argument."""
        for other in ("20", 20.0, None, True, b"20"):
            for name, call in [("length", lambda: Desk(other, 171)), ("spacecraft", lambda: Desk(20, other)),
                               ("length", lambda: Desk.load(bench().save(), other, 171)),
                               ("channel", lambda: bench().write(other, RUN))] + [
                                   (name, lambda name=name: bench().write(3, RUN, Place(**{name: other})))
                                   for name in Place._fields]:
                self.assertRaisesRegex(TypeError, "^%s is " % name, call)
        for other in ("20", 20.0, True, b"20"):
            self.assertRaisesRegex(TypeError, "^control_word is ", bench().write, 3, RUN, Place(), other)
        for other in ("no", "yes", "", 1.0, None):
            self.assertRaisesRegex(TypeError, "^error_control is ", Desk, 20, 171, other)
            self.assertRaisesRegex(TypeError, "^error_control is ", Desk.load, bench().save(), 20, 171, other)
        for yes in (True, 1, 2):
            self.assertEqual(repr(Desk(20, 171, yes)), "Desk(length=20, spacecraft=171, error_control=True)")

    def test_words(self):
        self.assertEqual(list(scowdeck.WORDS), list(range(1, 13)) + list(range(20, 26)))
        again = pickle.loads(pickle.dumps(Refused(12)))
        self.assertEqual((again.number, again.words), (12, scowdeck.WORDS[12]))

    def test_same_words_everywhere(self):
        """The header and the Rust wrapper have the same words for each number."""
        header = (HERE.parent / "include" / "scowdeck.h").read_text()
        table = header[header.index("#define SCOWDECK_SET_UP_RANGE"):header.index("/* ---- records")]
        found = re.findall(r"#define SCOWDECK_\w+ (\d+)u +/\* (.*) \*/", table)
        self.assertEqual({int(number): words for number, words in found}, scowdeck.WORDS)
        wrapper = (HERE.parent / "rust" / "scowdeck" / "src" / "refusal.rs").read_text()
        found = re.findall(r'^    \w+ = (\d+) "(.*)",$', wrapper, re.MULTILINE)
        self.assertEqual({int(number): words for number, words in found}, scowdeck.WORDS)


# ---------------------------------------------------------------- the frame part

CLOSING = {"length": 20, "spacecraft": 171, "error_control": False, "channel": 3, "master_count": 9, "channel_count": 4, "pointer": 0}


def edited(frame, *places):
    """The frame with other octets at some places."""
    frame = bytearray(frame)
    for place, value in places:
        frame[place] = value
    return bytes(frame)


class FramePart(unittest.TestCase):
    def test_readme(self):
        """README's examples of the frame part: the Python one prints what it says, the C one is tests/c/frame.c."""
        readme = (HERE.parent / "README.md").read_text()
        blocks = {kind: text for kind, text in re.findall(r"```(\w+)\n(.*?)```", readme, re.DOTALL)
                  if "close" in text}
        said = io.StringIO()
        with contextlib.redirect_stdout(said):
            exec(blocks["python"], {})
        self.assertEqual(said.getvalue(), blocks["python"].rsplit("# ", 1)[1])
        program = (HERE.parent / "tests" / "c" / "frame.c").read_text()
        self.assertIn(blocks["c"], textwrap.dedent(program[program.index("    uint8_t"):program.rindex("}")]))

    def test_bench(self):
        self.assertEqual(open_frame(B1, 20, 171, False),
                         Opened(171, 3, 9, 4, False, False, False, 3, 0, None, 6, B1[6:]))
        self.assertEqual(open_frame(bytearray(B3), 20, 171, False).pointer, 2046)
        self.assertEqual(close_frame(B1[6:], **CLOSING), B1)
        later = {**CLOSING, "master_count": 11, "channel_count": 6, "pointer": 2046}
        self.assertEqual(close_frame(memoryview(B3)[6:], **later), B3)

    def test_all_there_is(self):
        """A secondary header of two octets, a control word and error control."""
        frame = bytes.fromhex("2AABFF809801" + "0177" + "660421" "43C000" + "89ABCDEF")
        frame += binascii.crc_hqx(frame, 0xFFFF).to_bytes(2, "big")
        self.assertEqual(open_frame(frame, 20, 682, True),
                         Opened(682, 5, 255, 128, True, False, False, 3, 1, 0x89ABCDEF, 8, frame[8:14]))
        private = edited(B1, (4, 0x73), (5, 0xE8))
        self.assertEqual(open_frame(private, 20, 171, False),
                         Opened(171, 3, 9, 4, False, True, True, 2, 1000, None, 6, B1[6:]))

    def test_opening_refused(self):
        for number, frame in [(5, b""), (5, B2[:-1]), (5, B2 + b"\0"), (7, edited(B2, (0, 0x4A))),
                              (8, edited(B2, (1, 0xC6))), (9, edited(B2, (4, 0x98), (6, 0x40))),
                              (10, edited(B2, (4, 0x98), (6, 0x3F))), (11, edited(B2, (4, 0x38))),
                              (11, edited(B2, (4, 0x10))), (12, edited(B2, (5, 14))), (0, edited(B2, (5, 13)))]:
            self.assertEqual(refused(open_frame, frame, 20, 171, False), number)
        for length, spacecraft in [(12, 171), (2049, 171), (20, 1024)]:
            self.assertEqual(refused(open_frame, b"", length, spacecraft, False), 1)

    def test_damaged(self):
        frame = close_frame(bytes(58), **{**CLOSING, "length": 66, "error_control": True})
        self.assertEqual(open_frame(frame, 66, 171, True).data, bytes(58))
        for bit in range(8 * 66):
            damaged = edited(frame, (bit // 8, frame[bit // 8] ^ 128 >> bit % 8))
            self.assertEqual(refused(open_frame, damaged, 66, 171, True), 6)

    def test_closing_refused(self):
        for number, data, changed in [
                (1, b"", {"length": 12, "channel": 8}), (1, b"", {"length": 2049}), (1, b"", {"spacecraft": 1024}),
                (20, b"", {"channel": 8}), (25, b"", {}), (25, bytes(13), {}), (25, bytes(15), {}),
                (25, bytes(14), {"control_word": 0}), (25, bytes(14), {"error_control": True}),
                (25, bytes(1 << 20), {}), (0, bytes(14), {}), (0, bytes(10), {"control_word": 0}),
                (0, bytes(8), {"control_word": 2**32 - 1, "error_control": True}),
                (0, bytes(14), {"spacecraft": 1023, "channel": 7, "pointer": 2047})]:
            self.assertEqual(refused(close_frame, data, **{**CLOSING, **changed}), number, changed)

    def test_pointers(self):
        """Every pointer that a frame can hold is written; those past the data field are refused when opened."""
        for pointer in range(2048):
            frame = close_frame(bytes(14), **{**CLOSING, "pointer": pointer})
            self.assertEqual(frame[4:6], struct.pack(">H", 0x1800 + pointer))
            self.assertEqual(refused(open_frame, frame, 20, 171, False), 12 if 14 <= pointer <= 2045 else 0)

    def test_there_and_back(self):
        rng = random.Random(21)
        for _ in range(3000):
            length, error_control = rng.choice([13, 14, 20, rng.randint(13, 300), 2048]), rng.random() < 0.5
            word = rng.choice([None, 0, rng.randrange(2**32)])
            data = rng.randbytes(length - 6 - (4 if word is not None else 0) - (2 if error_control else 0))
            given = {"spacecraft": rng.randrange(1024), "channel": rng.randrange(8), "master_count": rng.randrange(256),
                     "channel_count": rng.randrange(256), "control_word": word,
                     "pointer": rng.choice([rng.randrange(len(data)), len(data) - 1, 2046, 2047])}
            frame = close_frame(data, length=length, error_control=error_control, **given)
            opened = open_frame(frame, length, given["spacecraft"], error_control)
            self.assertEqual({name: getattr(opened, name) for name in given}, given)
            self.assertEqual((len(frame), opened.data, opened.data_place, opened.segment), (length, data, 6, 3))
            self.assertFalse(opened.secondary_header or opened.synchronisation or opened.order)

    def test_numbers_of_any_size(self):
        """Nothing is cut to 32 bits, or a pointer to 11, on the way in."""
        for far in (-1, 2**32 + 20, 2**64 + 20, -2**40):
            for name, number in [("length", 1), ("spacecraft", 1), ("channel", 20)]:
                self.assertEqual(refused(close_frame, bytes(14), **{**CLOSING, name: far}), number)
            self.assertEqual(refused(open_frame, B1, far, 171, False), 1)
            self.assertEqual(refused(open_frame, B1, 20, far, False), 1)
            for name in ("master_count", "channel_count", "pointer", "control_word"):
                with self.assertRaisesRegex(ValueError, "^%s is " % name):
                    close_frame(bytes(14), **{**CLOSING, name: far * 2**12})
        for name, most in [("master_count", 255), ("channel_count", 255), ("pointer", 2047)]:
            self.assertRaises(ValueError, close_frame, bytes(14), **{**CLOSING, name: most + 1})
            self.assertEqual(refused(close_frame, bytes(14), **{**CLOSING, name: most}), 0)

    def test_kinds_of_arguments(self):
        for other in ("20", 20.0, None, True, b"20"):
            for name in CLOSING.keys() - {"error_control"}:
                with self.assertRaisesRegex(TypeError, "^%s is " % name):
                    close_frame(bytes(14), **{**CLOSING, name: other})
            self.assertRaisesRegex(TypeError, "^length is ", open_frame, B1, other, 171, False)
            self.assertRaisesRegex(TypeError, "^spacecraft is ", open_frame, B1, 20, other, False)
        for other in ("20", 20.0, True, b"20"):
            self.assertRaisesRegex(TypeError, "^control_word is ", close_frame, bytes(10), **CLOSING, control_word=other)
        for other in ("no", "", 1.0, None):
            self.assertRaisesRegex(TypeError, "^error_control is ", open_frame, B1, 20, 171, other)
            self.assertRaisesRegex(TypeError, "^error_control is ", close_frame, B1[6:], **{**CLOSING, "error_control": other})
        for other in (20, "text", None, [1, 2]):
            self.assertRaises(TypeError, open_frame, other, 20, 171, False)
            self.assertRaises(TypeError, close_frame, other, **CLOSING)
        self.assertRaises(TypeError, close_frame, B1[6:], 20, 171, 3, 9, 4, 0)

    def test_nothing_left_out(self):
        """Error control has to be said: a forgotten yes would not be refused."""
        self.assertRaisesRegex(TypeError, "error_control", open_frame, B1, 20, 171)
        given = {name: value for name, value in CLOSING.items() if name != "error_control"}
        self.assertRaisesRegex(TypeError, "error_control", close_frame, B1[6:], **given)

    def test_data_of_another_length(self):
        for octets, changed, fit in [(13, {}, 14), (14, {"control_word": 0}, 10), (15, {"error_control": True}, 12)]:
            with self.assertRaisesRegex(Refused, r"^refusal 25: .* \(the data has %d octets, and D is %d\)$" % (octets, fit)):
                close_frame(bytes(octets), **{**CLOSING, **changed})


# ---------------------------------------------------------------- a sender

class Sender:
    """Lays packets end to end on one channel, and knows which packet ends in which frame and in which
    frame it began."""

    def __init__(self, rng, length, channel, error_control):
        self.rng, self.length, self.channel, self.error_control = rng, length, channel, error_control
        self.count, self.rest, self.number, self.begun, self.whole = rng.randrange(256), b"", 0, 0, b""
        self.ends = []          # of the last frame: (packet, number of the frame that it began in)

    def new_packet(self):
        rng = self.rng
        low, high = rng.choices([(7, 12), (7, 90), (7, 400), (4000, 4200)], [8, 8, 4, 1])[0]
        total = rng.randint(low, high)
        self.whole = self.rest = packet(total, rng.choice([5, 700, 2047]), rng=rng)
        self.begun = self.number

    def frame(self, word=None):
        """The next frame; idle sometimes, but only between packets."""
        self.number += 1
        self.ends = []
        size = self.length - 6 - (4 if word is not None else 0) - (2 if self.error_control else 0)
        if not self.rest and self.rng.random() < 0.1:
            return self.closed(2046, self.rng.randbytes(size), word)
        data, pointer = b"", 2047
        while len(data) < size:
            if not self.rest:
                self.new_packet()
                pointer = min(pointer, len(data))
            taken, self.rest = self.rest[:size - len(data)], self.rest[size - len(data):]
            data += taken
            if not self.rest:
                self.ends.append((self.whole, self.begun))
        return self.closed(pointer, data, word)

    def closed(self, pointer, data, word):
        flag = 0 if word is None else 1
        frame = struct.pack(">HBBH", 171 << 4 | self.channel << 1 | flag, 77, self.count, 0x1800 | pointer) + data
        self.count = (self.count + 1) % 256
        if flag:
            frame += struct.pack(">I", word)
        if self.error_control:
            frame += struct.pack(">H", binascii.crc_hqx(frame, 0xFFFF))
        return frame


class Saving(unittest.TestCase):
    def stream(self, seed, length, error_control):
        """Frames of several lossy channels, each with the packets that are due in it."""
        rng = random.Random(seed)
        senders = [Sender(rng, length, v, error_control) for v in (0, 3, 7)]
        last_lost = {sender.channel: 0 for sender in senders}
        for _ in range(400):
            sender = rng.choice(senders)
            frame = sender.frame(rng.choice([None, rng.randrange(2**32)]))
            if rng.random() < 0.1:
                last_lost[sender.channel] = sender.number
                continue
            yield frame, tuple(octets for octets, begun in sender.ends
                               if begun > last_lost[sender.channel] and len(octets) <= 4096
                               and octets[:2] != b"\x07\xff")

    def test_lossy_stream(self):
        """What is due comes out, with and without saving and loading before every frame, in the middle
        of a packet or not, and with refused calls in between."""
        amid = delivered = gaps = 0
        for seed, length, error_control in [(1, 40, False), (2, 40, True), (3, 300, True), (4, 2048, False)]:
            straight = Desk(length, 171, error_control)
            saving = Desk(length, 171, error_control)
            for frame, due in self.stream(seed, length, error_control):
                amid += saving.busy().ones
                saving = Desk.load(saving.save(), length, 171, error_control)
                self.assertEqual(refused(saving.read, frame[:-1]), 5)
                report = straight.read(frame)
                self.assertEqual(report.packets, due)
                self.assertEqual(saving.read(frame), report)
                self.assertEqual(saving.busy(), straight.busy())
                self.assertEqual((report.foreign, report.disagreement), (0, 0))
                delivered, gaps = delivered + report.delivered, gaps + (report.gap > 0)
            self.assertEqual(saving.save(), straight.save())
        self.assertTrue(amid > 500 and delivered > 500 and gaps > 50, (amid, delivered, gaps))

    def test_form(self):
        """The octets of a saved desk, spelt out."""
        desk = bench()
        desk.read(B1)
        words = [0] * 12 + [1, 4, 1, 6] + [0] * 16
        whole = b"SCOWDECK\x01" + struct.pack(">32I", *words) + bytes(3 * 4096) + B1[14:] + bytes(5 * 4096 - 6)
        self.assertEqual(desk.save(), whole + struct.pack(">H", binascii.crc_hqx(whole, 0xFFFF)))

    def test_not_whole(self):
        desk = bench()
        desk.read(B1)
        saved = desk.save()
        record, store = saved[:9 + 128], saved[9 + 128:]
        pieces = [b"", saved[:8], saved[:9], record, store, saved[:-1], saved + b"\0", saved[1:], saved[9:],
                  b"scowdeck" + saved[8:], saved[:8] + b"\2" + saved[9:]]
        for piece in pieces:
            self.assertRaises(LoadError, Desk.load, piece, 20, 171)
        for place in random.Random(5).sample(range(len(saved)), 300):
            damaged = bytearray(saved)
            damaged[place] ^= 0x10
            self.assertRaises(LoadError, Desk.load, damaged, 20, 171)
        self.assertRaises(TypeError, Desk.load, "text", 20, 171)
        self.assertEqual(Desk.load(bytearray(saved), 20, 171).save(), saved)

    def test_broken_record(self):
        """A record with another store, or with words that no record has, is refused by 4."""
        for words, held in [([0] * 12 + [1, 4, 1, 6] + [0] * 16, b"\xff"), ([2] + [0] * 31, b""),
                            ([0] * 31 + [1], b""), ([0, 0, 1] + [0] * 29, b"")]:
            whole = b"SCOWDECK\x01" + struct.pack(">32I", *words) + bytes(3 * 4096) + held
            whole += bytes(9 + 128 + 32768 - len(whole))
            saved = whole + struct.pack(">H", binascii.crc_hqx(whole, 0xFFFF))
            self.assertEqual(refused(Desk.load, saved, 20, 171), 4)
        self.assertEqual(refused(Desk.load, bench().save(), 12, 171), 1)


# ---------------------------------------------------------------- against the model

BROKEN = {"heard": True, "last": 0, "state": "skipping", "number": 0}


def channels_of(words):
    """The words as the model's channels; words that no record has as a channel that breaks the rules."""
    if len(words) != 32:
        return [BROKEN] * 8
    channels = []
    for v in range(8):
        heard, last, state, number = words[4 * v:4 * v + 4]
        odd = heard > 1 or last > 255 or state > 2 or (state == 0 and number != 0)
        names = ["hunting", "gathering", "skipping"]
        channels.append(BROKEN if odd else
                        {"heard": heard == 1, "last": last, "state": names[state], "number": number})
    return channels


def words_of(channel):
    state = ["hunting", "gathering", "skipping"].index(channel["state"])
    return [int(channel["heard"]), channel["last"], state, channel["number"]]


def array(kind, values):
    return (kind * len(values))(*values) if len(values) else None


def octets_of(lent):
    return b"" if lent is None else bytes(lent)


class Model(unittest.TestCase):
    READS, WRITES, OPENS, CLOSES = 5000, 3000, 4000, 3000

    @classmethod
    def setUpClass(cls):
        cls.model = load_model()

    def reading(self, set_up, words, store, output, frame, room):
        """One call on the library and on the model: every word and octet that was lent is compared."""
        model = self.model
        record = array(ctypes.c_uint32, words)
        lent_store = None if not store else (ctypes.c_uint8 * len(store)).from_buffer_copy(store)
        lent_output = None if not output else (ctypes.c_uint8 * len(output)).from_buffer_copy(output)
        answer = (ctypes.c_uint32 * 24)(*range(900, 924))
        said = scowdeck.library().scowdeck_read(
            *set_up, record, len(words), lent_store, len(store), lent_output, len(output),
            frame or None, len(frame), answer if room else None, room)
        code, h, reading = model.read_frame(*set_up, channels_of(words), store, output, frame)
        values, after = [code] + [0] * 19, (list(words), store, output)
        if reading:
            v, handed = h["channel"], b"".join(reading.delivered)
            after[0][4 * v:4 * v + 4] = words_of(reading.channel)
            after = (after[0], store[:4096 * v] + reading.part + store[4096 * v + 4096:],
                     handed + output[len(handed):])
            counts = [reading.counts[name] for name in ("idle", "broken", "disagreement", "foreign", "oversize")]
            values = ([0, reading.kind] + [h[name] for name in model.HEADER_NAMES]
                      + [h["word"], reading.counts["gap"], len(reading.delivered)] + counts)
        self.assertEqual(said, code)
        self.assertEqual(list(answer), (values[:room] + list(range(900, 924))[min(room, 20):])[:24])
        self.assertEqual(list(record or []), after[0])
        self.assertTrue(octets_of(lent_store) == after[1], "store")
        self.assertTrue(octets_of(lent_output) == after[2], "output")
        return values, after

    def frame(self, rng, set_up, senders):
        """A frame of a sender, whole or with a fault, or noise; perhaps lost, so that there is a gap."""
        length, _, error_control = set_up
        sender = rng.choice(senders)
        while rng.random() < 0.12:
            sender.frame()
        frame = bytearray(sender.frame(rng.choice([None, None, rng.randrange(2**32)])))
        fault = rng.random()
        if fault < 0.25:
            place = rng.choice([0, 1, 2, 3, 4, 4, 4, 5, 5, 6, 6, 7, rng.randrange(length)])
            frame[place] ^= 1 << rng.randrange(8)
        elif fault < 0.30:
            frame[4] |= 0x80
            frame[6] = rng.choice([0, 1, 5, 63, 64, 255])
        elif fault < 0.33:
            frame = bytearray(rng.randbytes(length))
        elif fault < 0.36:
            frame[4] |= 0x40
        if error_control and rng.random() < 0.9:
            frame[-2:] = binascii.crc_hqx(bytes(frame[:-2]), 0xFFFF).to_bytes(2, "big")
        if rng.random() < 0.03:
            frame = frame[:rng.randrange(length)] if rng.random() < 0.5 else frame + b"\0"
        return bytes(frame)

    def odd_record(self, rng, words):
        """The record with something changed: often it breaks the rules now, sometimes it does not."""
        words = list(words)
        if rng.random() < 0.2:
            return words[:rng.randrange(32)] if rng.random() < 0.5 else words + [0]
        v = rng.randrange(8)
        words[4 * v:4 * v + 4] = [rng.choice([0, 1, 1, 1, 2, 2**32 - 1]), rng.choice([0, 9, 255, 256]),
                                  rng.choice([0, 1, 1, 1, 2, 2, 3, 257]),
                                  rng.choice([0, 1, 3, 5, 6, 7, 40, 4095, 4096, 65536, 65537, 2**32 - 1])]
        return words

    def test_reading(self):
        rng, seen = random.Random(11), collections.Counter()
        for call in range(self.READS):
            if call % 200 == 0:
                length = rng.choice([13, 14, 17, 20, rng.randint(13, 80), rng.randint(100, 600), 1115, 2048])
                set_up = length, 171, rng.choice([0, 1, 7 << 20])
                senders = [Sender(rng, length, v, set_up[2]) for v in rng.sample(range(8), 3)]
                words, store = [0] * 32, rng.randbytes(32768)
            lent = rng.random()
            given = self.odd_record(rng, words) if lent < 0.08 else words
            lent_store = store[:rng.randrange(32768)] if 0.08 < lent < 0.1 else store + b"\0" if lent > 0.99 else store
            output = rng.randbytes(rng.choice([0, 20, 6143]) if 0.1 < lent < 0.12 else rng.choice([6144, 6144, 6200]))
            asked = set_up if not 0.12 < lent < 0.14 else rng.choice(
                [(12, 171, 0), (2049, 171, 1), (length, 1024, 0), (2**32 - 1, 171, 0), (length, 2**32 - 1, 1)])
            values, after = self.reading(asked, given, lent_store, output, self.frame(rng, set_up, senders),
                                         rng.choice([20, 20, 20, 24, rng.randrange(24)]))
            seen["number", values[0]] += 1
            seen["kind", values[1]] += 1
            for name, value in zip(["gap", "delivered", "idle", "broken", "disagreement", "foreign", "oversize"],
                                   values[13:]):
                seen[name] += value > 0
            if values[0] == 0:
                words, store = after[0], after[1]
        self.covered(seen, [("number", n) for n in range(13)] + [("kind", k) for k in range(4)]
                     + ["gap", "delivered", "idle", "broken", "disagreement", "foreign", "oversize"])

    def test_every_odd_channel(self):
        """All combinations of words around the rules' edges, over octets held that pass or break them."""
        rng, seen = random.Random(14), collections.Counter()
        for words in itertools.product([0, 1, 2, 2**32 - 1], [0, 255, 256], [0, 1, 2, 3, 258],
                                       [0, 1, 5, 6, 7, 4095, 4096, 65536, 65537, 2**32 - 1]):
            for head in (b"\xff", packet(7), packet(8), packet(4096), packet(4097)):
                v = rng.randrange(8)
                store = bytes(4096 * v) + head[:8] + bytes(32768 - 4096 * v - len(head[:8]))
                values, _ = self.reading((20, 171, 0), [0] * 4 * v + list(words) + [0] * (28 - 4 * v), store,
                                         bytes(6144), B1, 20)
                seen[values[0]] += 1
        self.covered(seen, [0, 4])

    def covered(self, seen, wanted):
        never = [name for name in wanted if not seen[name]]
        self.assertEqual(never, [], "never came up in %s" % dict(seen))

    def run_of(self, rng):
        run = b"".join(packet(rng.choice([7, 8, rng.randint(7, 60), rng.randint(7, 700)]), rng.choice([5, 2047]),
                              rng=rng) for _ in range(rng.randrange(6)))
        fault = rng.random()
        if fault < 0.05:
            run = run[:rng.randrange(len(run) + 1)]
        elif fault < 0.08 and run:
            run = bytes([run[0] | 0x20]) + run[1:]
        elif fault < 0.09:
            run = bytes(rng.choice([65534, 65536, 65537, 65541]))
        return run

    def writing(self, rng, set_up, channel, counts, word, run, offset, left, room):
        output, answer = rng.randbytes(room), (ctypes.c_uint32 * 8)(*range(900, 908))
        lent = (ctypes.c_uint8 * room).from_buffer_copy(output) if room else None
        said_room = rng.choice([5, 5, 5, rng.randrange(9)])
        has_word = 0 if word is None else rng.choice([1, 2, 1 << 31])
        said = scowdeck.library().scowdeck_write(
            *set_up, channel, *counts, has_word, word or 0, run or None, len(run), offset, left, lent, room,
            answer if said_room else None, said_room)
        code, place, after = self.model.write_frame(*set_up, channel, *counts, word, run, offset, left, output)
        values = [code, *place]
        self.assertEqual(said, code)
        self.assertEqual(list(answer), (values[:said_room] + list(range(900, 908))[min(said_room, 5):])[:8])
        self.assertEqual(octets_of(lent), after)
        return code, place

    def test_writing(self):
        rng, seen = random.Random(12), collections.Counter()
        for call in range(self.WRITES):
            if call == 0 or rng.random() < 0.2:
                length = rng.choice([13, 14, 20, rng.randint(13, 80), rng.randint(100, 600), 2048])
                set_up = length, rng.randrange(1024), rng.choice([0, 1, 99])
                run, place = self.run_of(rng), (0, rng.randrange(7), rng.randrange(256), rng.randrange(256))
            offset, left, *counts = place
            odd = rng.random()
            if odd < 0.05:
                offset = rng.choice([rng.randrange(len(run) + 2), len(run) + 1, 2**32 - 1])
            elif odd < 0.1:
                left = rng.choice([1, 6, 7, 2**32 - 1])
            asked = set_up if odd < 0.97 else rng.choice([(12, 3, 0), (2049, 3, 0), (20, 1024, 1)])
            room = length if odd < 0.92 or odd > 0.97 else rng.choice([0, length - 1, length + 1])
            code, place = self.writing(rng, asked, rng.choice([8, 2**32 - 1]) if 0.1 < odd < 0.12 else rng.randrange(8),
                                       counts, rng.choice([None, rng.randrange(2**32)]), run, offset, left, room)
            seen[code] += 1
            if code:
                run, place = self.run_of(rng), (0, rng.randrange(7), rng.randrange(256), rng.randrange(256))
        self.covered(seen, [0, 1] + list(range(20, 26)))

    def opening(self, set_up, frame, room):
        """One opening on the library and on the model."""
        answer = (ctypes.c_uint32 * 20)(*range(900, 920))
        lent = None if not frame else (ctypes.c_uint8 * len(frame)).from_buffer_copy(frame)
        said = scowdeck.library().scowdeck_open(*set_up, lent, len(frame), answer if room else None, room)
        code, h = self.model.open_alone(*set_up, frame)
        names = self.model.HEADER_NAMES + ["word", "place", "size"]
        values = [code] + [h[name] if h else 0 for name in names]
        self.assertEqual(said, code)
        self.assertEqual(list(answer), (values[:room] + list(range(900, 920))[min(room, 14):])[:20])
        self.assertEqual(octets_of(lent), frame)
        return code

    def test_opening(self):
        rng, seen = random.Random(15), collections.Counter()
        for call in range(self.OPENS):
            if call % 100 == 0:
                length = rng.choice([13, 14, 17, 20, rng.randint(13, 80), rng.randint(100, 600), 1115, 2048])
                set_up = length, 171, rng.choice([0, 1, 7 << 20])
                senders = [Sender(rng, length, v, set_up[2]) for v in rng.sample(range(8), 3)]
            asked = set_up if rng.random() < 0.97 else rng.choice(
                [(12, 171, 0), (2049, 171, 1), (length, 1024, 0), (2**32 - 1, 171, 0), (length, 2**32 - 1, 1)])
            seen[self.opening(asked, self.frame(rng, set_up, senders), rng.choice([14, 14, rng.randrange(20)]))] += 1
        self.covered(seen, [0, 1] + list(range(5, 13)))

    def test_closing(self):
        """Closings on the library and on the model, with any pointer and any output."""
        rng, seen = random.Random(16), collections.Counter()
        for _ in range(self.CLOSES):
            length = rng.choice([13, 14, 20, rng.randint(13, 80), rng.randint(100, 600), 2048])
            set_up = length, rng.randrange(1024), rng.choice([0, 1, 99])
            odd = rng.random()
            asked = set_up if odd < 0.95 else rng.choice([(12, 3, 0), (2049, 3, 0), (20, 1024, 1)])
            room = length if odd > 0.1 else rng.choice([0, 6, length - 1, length + 1])
            channel = rng.choice([8, 259, 2**32 - 1]) if 0.08 < odd < 0.15 else rng.randrange(8)
            numbers = channel, rng.randrange(256), rng.randrange(256)
            has_word, word = rng.choice([0, 0, 1, 2, 1 << 31]), rng.randrange(2**32)
            pointer = rng.choice([rng.randrange(2048), 2046, 2047, 2048, rng.randrange(2**32)])
            output = rng.randbytes(room)
            lent = (ctypes.c_uint8 * room).from_buffer_copy(output) if room else None
            said = scowdeck.library().scowdeck_close(*asked, *numbers, has_word, word, pointer, lent, room)
            code, after = self.model.close_frame(*asked, *numbers, word if has_word else None, pointer, output)
            self.assertEqual((said, octets_of(lent)), (code, after))
            seen[code] += 1
        self.covered(seen, [0, 1, 20, 25])

    def test_busy(self):
        rng = random.Random(13)
        for _ in range(3000):
            words = [rng.choice([0, 1, 2, 3, 256, 257, 258, 2**32 - 1, rng.randrange(2**32)])
                     for _ in range(rng.choice([32, 32, rng.randrange(45)]))]
            answer = (ctypes.c_uint32 * 3)()
            mask = scowdeck.library().scowdeck_busy(array(ctypes.c_uint32, words), len(words), answer, 3)
            busy = [v for v in range(min(8, len(words) // 4))
                    if words[4 * v + 2] == 2 or (words[4 * v + 2] == 1 and words[4 * v + 3] != 0)]
            self.assertEqual((mask, list(answer)), (sum(2**v for v in busy), [mask, len(busy), min(busy, default=8)]))


if __name__ == "__main__":
    unittest.main()
