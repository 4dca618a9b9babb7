#!/usr/bin/env python3
"""Plays the script tests/vectors.txt over the boundary, and compares every line with the independent model.

    python3 tests/vectors_test.py

The library is target/native/libscowdeck.so, or the file that SCOWDECK_LIB names. Each line is played by its functions and by
tests/model.py, and each side keeps a record, a store, a run and a place of its own from line to line. After every line, refused
or not, all of it is compared in full: the words of the answer, the 32 words of the record, every octet of the store and of the
output, those that were not lent among them, and where the next frame is written from. Octets that a call may only read, and the
word after an answer, have to stay. A line for the first difference, and exit status 1.
"""
import collections
import ctypes
import os
import sys

HERE = os.path.dirname(os.path.dirname(os.path.abspath(__file__)))
sys.dont_write_bytecode = True
sys.path.insert(0, os.path.join(HERE, "python"))
import model  # noqa: E402
import scowdeck  # noqa: E402

SCRIPT = os.path.join(HERE, "tests", "vectors.txt")
AFTER = 0xABCD1234    # the word after an answer
# First words of answers that the script has to come upon: 0 and the number of every refusal, some checks, some masks.
WANTED = {"read": range(13), "open": [0, 1, *range(5, 13)], "write": [0, 1, *range(20, 26)], "again": [0, 25], "back": [0],
          "close": [0, 1, 20, 25], "crc": [0, 0x29B1, 0xFFFF], "busy": [0, 1, 255]}


def lent(octets):
    return (ctypes.c_uint8 * len(octets)).from_buffer_copy(octets)


def blank(count):
    return lent(bytes([model.BLANK]) * count)


def expect(condition, what):
    if not condition:
        raise AssertionError(what)


class Boundary:
    """The script's commands over the six functions. A line that only sets something answers nothing."""

    def __init__(self):
        self.do_fresh()
        self.run, self.written = b"", b""
        self.set_up, self.channel, self.place, self.lent_frame = (0, 0, 0), 0, (0, 0, 0, 0), 0

    def play(self, name, arguments):
        self.answer, self.output = [], b""
        getattr(self, "do_" + name)(*arguments)

    def answered(self, name, words, *arguments):
        """Calls a function that lays down so many words as its answer, and gives these."""
        answer = (ctypes.c_uint32 * (words + 1))(*[AFTER] * (words + 1))
        said = getattr(scowdeck.library(), "scowdeck_" + name)(*arguments, answer, words)
        expect(said == answer[0], "%s returned %d, and its answer begins with %d" % (name, said, answer[0]))
        expect(answer[words] == AFTER, "%s wrote behind its answer" % name)
        return list(answer[:words])

    def do_crc(self, message):
        seen = lent(message)
        self.answer = [scowdeck.library().scowdeck_syndrome(seen, len(message))]
        expect(bytes(seen) == message, "syndrome changed its octets")

    def do_open(self, n, spacecraft, error_control, frame):
        seen = lent(frame)
        self.answer = self.answered("open", scowdeck.OPEN_WORDS, n, spacecraft, error_control, seen, len(frame))
        expect(bytes(seen) == frame, "open changed the frame")

    def do_close(self, n, spacecraft, error_control, channel, master, count, has_word, word, pointer, output):
        room = lent(output + bytes([model.BLANK]) * 16)
        self.answer = [scowdeck.library().scowdeck_close(n, spacecraft, error_control, channel, master, count, has_word, word,
                                                         pointer, room, len(output))]
        self.output, behind = bytes(room)[:len(output)], bytes(room)[len(output):]
        expect(behind == bytes([model.BLANK]) * 16, "close wrote behind its output")

    def do_fresh(self):
        self.record = (ctypes.c_uint32 * scowdeck.RECORD_WORDS)()
        self.store = lent(bytes(model.STORE_ROOM))
        self.lent_store, self.lent_output = scowdeck.STORE_OCTETS, scowdeck.OUTPUT_OCTETS

    def do_paint(self, value):
        self.store[:] = [value] * model.STORE_ROOM

    def do_lend(self, store, output):
        self.lent_store, self.lent_output = store, output

    def do_channel(self, v, heard, last, state, size):
        self.record[4 * v:4 * v + 4] = [1 if heard else 0, last, state, size if state else 0]

    def do_hold(self, v, held):
        at = model.PART * v
        self.store[at:at + len(held)] = list(held)

    def do_read(self, n, spacecraft, error_control, frame):
        output, seen = blank(model.OUTPUT_ROOM), lent(frame)
        self.answer = self.answered("read", scowdeck.READ_WORDS, n, spacecraft, error_control,
                                    self.record, scowdeck.RECORD_WORDS, self.store, self.lent_store,
                                    output, self.lent_output, seen, len(frame))
        self.output = bytes(output)
        expect(bytes(seen) == frame, "read changed the frame")

    def do_busy(self):
        self.answer = self.answered("busy", scowdeck.BUSY_WORDS, self.record, scowdeck.RECORD_WORDS)

    def do_run(self, run):
        self.run = run

    def do_runfill(self, total, count):
        """Packets of application 1, numbered in order; a body octet is its place in the run modulo 256."""
        run = bytearray(i % 256 for i in range(total * count))
        for i in range(count):
            run[total * i:total * i + 6] = b"\0\1" + (0xC000 + i % 16384).to_bytes(2, "big") + (total - 7).to_bytes(2, "big")
        self.run = bytes(run)

    def do_write(self, n, spacecraft, error_control, channel, master, count, has_word, word, offset, left, room):
        self.set_up, self.channel, self.lent_frame = (n, spacecraft, error_control), channel, room
        self.place = (offset, left, master, count)
        self.do_again(has_word, word)

    def do_again(self, has_word, word):
        offset, left, master, count = self.place
        room, seen = blank(model.FRAME_ROOM), lent(self.run)
        self.answer = self.answered("write", scowdeck.WRITE_WORDS, *self.set_up, self.channel, master, count, has_word, word,
                                    seen, len(self.run), offset, left, room, self.lent_frame)
        self.place = tuple(self.answer[1:])
        self.output, behind = bytes(room)[:self.lent_frame], bytes(room)[self.lent_frame:]
        self.written = self.output
        expect(bytes(seen) == self.run, "write changed the run")
        expect(behind == bytes([model.BLANK]) * len(behind), "write wrote behind its output")

    def do_back(self):
        self.do_read(*self.set_up, self.written)


def by_boundary(played):
    return {"answer": played.answer, "output": played.output, "record": list(played.record), "store": bytes(played.store),
            "lent": (played.lent_store, played.lent_output), "run": played.run, "written": played.written,
            "place": played.place}


def by_model(script):
    words = [word for c in script.channels
             for word in (int(c["heard"]), c["last"], model.STATES.index(c["state"]), c["number"])]
    return {"answer": script.answer, "output": script.output, "record": words, "store": script.store,
            "lent": (script.lent_store, script.lent_output), "run": script.run, "written": script.written,
            "place": script.place}


def difference(found, wanted):
    """The first place where the two differ, in words."""
    for i, (a, b) in enumerate(zip(found, wanted)):
        if a != b:
            return "at %d the boundary has %s and the model %s" % (i, a, b)
    return "the boundary has %d and the model %d of them" % (len(found), len(wanted))


def follow(lines):
    """Plays all lines; gives how often each command came to each answer."""
    played, script, seen = Boundary(), model.Script(), collections.Counter()
    for at, text in enumerate(lines, 1):
        if text == "" or text.startswith("#"):
            continue
        try:
            name, arguments = model.parsed(text)
            script.interpret(text)
            played.play(name, arguments)
            found, wanted = by_boundary(played), by_model(script)
            for key, value in wanted.items():
                expect(found[key] == value, "%s: %s" % (key, difference(found[key], value)))
        except model.Malformed:
            sys.exit("vectors_test: line %d is no case: %.200s" % (at, text))
        except AssertionError as wrong:
            sys.exit("vectors_test: line %d: %s\n    %.200s" % (at, wrong, text))
        seen[(name, *script.answer[:1])] += 1
    return seen


def main():
    with open(SCRIPT, encoding="ascii") as script:
        seen = follow(script.read().split("\n"))
    never = [(name, number) for name, numbers in WANTED.items() for number in numbers if not seen[name, number]]
    calls = sum(count for (_, *answer), count in seen.items() if answer)
    if never:
        sys.exit("vectors_test: never came up: %s" % never)
    print("vectors_test: %d lines, %d of them calls, 0 wrong" % (sum(seen.values()), calls))


if __name__ == "__main__":
    main()
