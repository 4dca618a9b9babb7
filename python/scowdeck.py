r"""Scowdeck for Python: telemetry frames in, packets out per virtual channel.

It calls the proved library through ctypes and needs the standard library alone. The shared library is
target/native/libscowdeck.so of the repository, which `./make-lib` makes, or the file that the
environment variable SCOWDECK_LIB names.

    >>> from scowdeck import Desk, Place, Refused
    >>> desk = Desk(length=20, spacecraft=171)
    >>> packet = bytes.fromhex("0123C0050001DEAD")
    >>> frame, place = desk.write(3, packet, Place(master_count=9, channel_count=4))
    >>> frame.hex()
    '0ab6090418000123c0050001dead07ffc0000000'
    >>> report = desk.read(frame)
    >>> report.channel, report.gap, [packet.hex() for packet in report.packets]
    (3, 0, ['0123c0050001dead'])

A refusal is an exception, so that a refused frame is never taken for a good one. It has the number
and the words of the paper's table, and nothing was changed:

    >>> try:
    ...     desk.read(frame[:-1])
    ... except Refused as refusal:
    ...     print(refusal.number, refusal.words)
    5 the frame is not N octets

A desk keeps its record and its store inside. They mean nothing without each other, so they are saved
and loaded together:

    >>> saved = desk.save()
    >>> later = Desk.load(saved, length=20, spacecraft=171)
    >>> later.busy()
    Busy(mask=8, ones=1, lowest=3)

Who has only frames to take apart or to put together needs no desk:

    >>> from scowdeck import close_frame, open_frame
    >>> opened = open_frame(frame, length=20, spacecraft=171, error_control=False)
    >>> opened.channel, opened.pointer, opened.data.hex()
    (3, 0, '0123c0050001dead07ffc0000000')
    >>> frame == close_frame(opened.data, length=20, spacecraft=171, error_control=False, channel=3,
    ...                      master_count=9, channel_count=4, pointer=0)
    True
"""
import ctypes
import enum
import operator
import os
import pathlib
import struct
import typing
from dataclasses import dataclass

__all__ = ["Busy", "Desk", "Kind", "LoadError", "Opened", "POINTER_IDLE", "POINTER_NONE", "Place", "Refused", "Report", "WORDS",
           "close_frame", "library", "open_frame", "syndrome"]

CHANNELS = 8
RECORD_WORDS = 32
STORE_OCTETS = 32768
OUTPUT_OCTETS = 6144
READ_WORDS, WRITE_WORDS, BUSY_WORDS, OPEN_WORDS = 20, 5, 3, 14
HEADER_OCTETS, CONTROL_WORD_OCTETS, ERROR_CONTROL_OCTETS = 6, 4, 2
# The pointer of a frame with idle data only, and of one in which no packet starts.
POINTER_IDLE, POINTER_NONE = 2046, 2047

#: The paper's words for each refusal; N is the frame length, D the octets of the data field.
WORDS = {
    1: "N or the spacecraft number is outside its range",
    2: "the store is not 32,768 octets",
    3: "the output is under 6,144 octets",
    4: "any of the eight records breaks the rules",
    5: "the frame is not N octets",
    6: "error control is set up and the syndrome is not zero",
    7: "frame version is not 00",
    8: "the spacecraft number differs",
    9: "the secondary header flag is set and that header's version is not 00",
    10: "D would be below 1",
    11: "synchronisation flag 0, and either order flag not 0 or segment id not 11",
    12: "synchronisation flag 0, and pointer neither below D nor 2046 nor 2047",
    20: "channel above 7",
    21: "run over 65,536 octets",
    22: "run not a chain of whole version 000 packets",
    23: "offset past the run's end",
    24: "left-over above 6, or not zero while the offset is neither 0 nor the run's end",
    25: "output not N octets",
}


class Refused(Exception):
    """A call was refused: `number` of the paper's table and its `words`. Nothing was changed."""

    def __init__(self, number, more=None):
        self.number = number
        self.words = WORDS.get(number, "no number of the paper")
        self.more = more
        super().__init__("refusal %d: %s%s" % (number, self.words, " (%s)" % more if more else ""))

    def __reduce__(self):
        return Refused, (self.number, self.more)


class LoadError(ValueError):
    """Octets that are no saved desk, or not a whole one, or a damaged one."""


class Kind(enum.IntEnum):
    """What an accepted frame is."""

    PACKETS = 1
    IDLE = 2
    PRIVATE = 3


class Place(typing.NamedTuple):
    """Where a writing stands: in the same run each call is given the place that the last one returned.

    A new run of packets starts at offset 0, with the left-over and the counts returned:
    `place._replace(offset=0)`.
    """

    offset: int = 0
    left_over: int = 0
    master_count: int = 0
    channel_count: int = 0


class Busy(typing.NamedTuple):
    """Bit 2^v of `mask` is set when channel v skips or holds octets; `lowest` is 8 if none does."""

    mask: int
    ones: int
    lowest: int


@dataclass(frozen=True)
class Report:
    """What an accepted frame gave.

    `control_word` is None if the frame has none. `gap` is how many frames of this channel are
    missing before this one, modulo 256: 0 after exactly 256 lost frames too. `packets` are the
    delivered ones, in order; `idle` counts the idle packets that ended in this frame. The other
    counts are 0 or 1: a packet under way was given up (`broken`), the pointer was not the one that
    the packet under way called for (`disagreement`), a packet of another version ended the walk
    (`foreign`), a packet of more than 4,096 octets began to be skipped (`oversize`).
    """

    kind: Kind
    spacecraft: int
    channel: int
    master_count: int
    channel_count: int
    secondary_header: bool
    synchronisation: bool
    order: bool
    segment: int
    pointer: int
    control_word: typing.Optional[int]
    gap: int
    packets: typing.Tuple[bytes, ...]
    idle: int
    broken: int
    disagreement: int
    foreign: int
    oversize: int

    @property
    def delivered(self):
        """How many packets were delivered."""
        return len(self.packets)


@dataclass(frozen=True)
class Opened:
    """What a frame that was opened tells.

    `control_word` is None if the frame has none. `data` is the data field, and `data_place` where it
    starts in the frame. If `synchronisation` is True, `order`, `segment` and `pointer` were not tested.
    """

    spacecraft: int
    channel: int
    master_count: int
    channel_count: int
    secondary_header: bool
    synchronisation: bool
    order: bool
    segment: int
    pointer: int
    control_word: typing.Optional[int]
    data_place: int
    data: bytes


# ---------------------------------------------------------------- the library

_LOADED = None


def library():
    """The shared library, with the six functions of include/scowdeck.h and their types.

    For calls that this module does not make: other lengths of record, store, output and answer. A slice is
    a ctypes array (or bytes, where it is only read, or None for length 0) and its length.
    """
    global _LOADED
    if _LOADED is None:
        beside = pathlib.Path(__file__).resolve().parent.parent / "target" / "native" / "libscowdeck.so"
        path = os.environ.get("SCOWDECK_LIB") or str(beside)
        if not os.path.exists(path):
            raise FileNotFoundError("there is no %s: run ./make-lib, or name the file in SCOWDECK_LIB" % path)
        _LOADED = _typed(ctypes.CDLL(path))
    return _LOADED


def _typed(found):
    octet, word = ctypes.c_uint8, ctypes.c_uint32
    piece = [ctypes.c_void_p, ctypes.c_size_t]
    for name, types in [
            ("read", [word] * 3 + piece * 5),
            ("write", [word] * 4 + [octet] * 2 + [word] * 2 + piece + [word] * 2 + piece * 2),
            ("busy", piece * 2),
            ("open", [word] * 3 + piece * 2),
            ("close", [word] * 4 + [octet] * 2 + [word] * 3 + piece),
            ("syndrome", piece)]:
        function = getattr(found, "scowdeck_" + name)
        function.argtypes, function.restype = types, word
    return found


def _octets(value):
    """Anything with octets in it, but no number and no text."""
    return value if isinstance(value, bytes) else bytes(memoryview(value))


def _whole(value, name):
    """A whole number; True and False are none here."""
    if isinstance(value, bool) or not hasattr(value, "__index__"):
        raise TypeError("%s is %r, and not a whole number" % (name, value))
    return operator.index(value)


def _truth(value, name):
    """True or False, or a number: 0 is no, any other yes. A text such as "no" would count as true."""
    if not hasattr(value, "__index__"):
        raise TypeError("%s is %r, and not True or False" % (name, value))
    return 1 if value else 0


def _number(value, name):
    """A number for a place that the library tests. One that no 32 bits hold goes over as the greatest
    of 32 bits, which every one of those tests refuses as it would refuse the number itself."""
    value = _whole(value, name)
    return value if 0 <= value < 2**32 else 2**32 - 1


def _bits(value, width, name):
    """A number for a place that takes any value of so many bits."""
    value = _whole(value, name)
    if not 0 <= value < 2**width:
        raise ValueError("%s is %d, which is not 0 to %d" % (name, value, 2**width - 1))
    return value


def syndrome(octets):
    """The syndrome of any octets: 0 for a whole good frame, the error control field for the octets
    before it.

    >>> hex(syndrome(b"123456789"))
    '0x29b1'
    >>> hex(syndrome(b""))
    '0xffff'
    """
    octets = _octets(octets)
    return library().scowdeck_syndrome(octets, len(octets))


# ---------------------------------------------------------------- the frame part

def _set_up(length, spacecraft, error_control):
    return _number(length, "length"), _number(spacecraft, "spacecraft"), _truth(error_control, "error_control")


def _word(control_word):
    """Whether there is a control word, and which."""
    return (0, 0) if control_word is None else (1, _bits(control_word, 32, "control_word"))


def open_frame(frame, length, spacecraft, error_control):
    """Opens one frame and gives its header values, control word and data field as an Opened, or raises
    Refused, by tests 1 and 5 to 12. The set-up is that of a Desk; no desk is needed. `error_control` has
    to be said: where frames have error control, False is not refused, and takes its two octets for data.

    >>> open_frame(bytes.fromhex("0AB60B061FFE" + 14 * "55"), length=20, spacecraft=171, error_control=False).data.hex()
    '5555555555555555555555555555'
    >>> open_frame(b"", length=20, spacecraft=171, error_control=False)
    Traceback (most recent call last):
      ...
    scowdeck.Refused: refusal 5: the frame is not N octets
    """
    frame, answer = _octets(frame), (ctypes.c_uint32 * OPEN_WORDS)()
    number = library().scowdeck_open(*_set_up(length, spacecraft, error_control), frame, len(frame), answer, OPEN_WORDS)
    if number != 0:
        raise Refused(number)
    (_, spacecraft, channel, flagged, master_count, channel_count, secondary, synchronisation, order, segment, pointer,
     word, place, octets) = answer
    return Opened(spacecraft, channel, master_count, channel_count, bool(secondary), bool(synchronisation), bool(order),
                  segment, pointer, word if flagged else None, place, frame[place:place + octets])


def close_frame(data, *, length, spacecraft, error_control, channel, master_count, channel_count, pointer,
                control_word=None):
    """Closes one frame: header, control word and error control around a data field. Gives the frame, or
    raises Refused, by 1, 20 and 25. The set-up is that of a Desk; no desk is needed.

    `data` has D = N - 6 - (4 with a control word) - (2 with error control) octets; with any other number
    the frame would not have N octets, and is refused by 25. The frame has no secondary header,
    synchronisation and order flag 0 and segment length id 3. `pointer` is the place in the data field, from 0, of the first packet
    header that starts there, or POINTER_NONE if none does, or POINTER_IDLE for idle data. No frame holds one
    above 2,047: a ValueError, as is a count or a control word that does not fit its bits. One that is neither below D nor 2046 nor 2047 is written, and refused by 12 when the
    frame is opened.

    >>> frame = close_frame(52 * b"U", length=64, spacecraft=5, error_control=True, channel=1,
    ...                     master_count=9, channel_count=4, pointer=2046, control_word=0xCAFE)
    >>> frame[:6].hex(), frame[-6:].hex(), syndrome(frame)
    ('005309041ffe', '0000cafe79b9', 0)
    >>> close_frame(b"", length=20, spacecraft=171, error_control=False, channel=3, master_count=9, channel_count=4,
    ...             pointer=0)
    Traceback (most recent call last):
      ...
    scowdeck.Refused: refusal 25: output not N octets (the data has 0 octets, and D is 14)
    """
    set_up, word = _set_up(length, spacecraft, error_control), _word(control_word)
    data = _octets(data)
    after = word[0] * CONTROL_WORD_OCTETS + set_up[2] * ERROR_CONTROL_OCTETS
    output = bytearray(bytes(HEADER_OCTETS) + data + bytes(after))
    lent = (ctypes.c_uint8 * len(output)).from_buffer(output)
    number = library().scowdeck_close(
        *set_up, _number(channel, "channel"), _bits(master_count, 8, "master_count"),
        _bits(channel_count, 8, "channel_count"), *word, _bits(pointer, 11, "pointer"), lent, len(output))
    if number == 25:
        fit = max(0, length - HEADER_OCTETS - after)
        raise Refused(number, "the data has %d octets, and D is %d" % (len(data), fit))
    if number != 0:
        raise Refused(number)
    return bytes(output)


# ---------------------------------------------------------------- saving

# A saved desk: this name, the form's number, the record's 32 words big-endian, the store's octets, and
# the error control field over all of it. The Rust wrapper's form is the same.
_NAME = b"SCOWDECK"
_FORM = b"\x01"
_SAVED = struct.Struct(">9s32I%dsH" % STORE_OCTETS)


def _pack(words, store):
    whole = _SAVED.pack(_NAME + _FORM, *words, bytes(store), 0)[:-2]
    return whole + struct.pack(">H", syndrome(whole))


def _unpack(saved):
    if saved[:8] != _NAME:
        raise LoadError("this is no saved desk")
    if saved[8:9] not in (b"", _FORM):
        raise LoadError("a saved desk of an unknown form")
    if len(saved) != _SAVED.size:
        raise LoadError("a saved desk has %d octets, and not %d" % (_SAVED.size, len(saved)))
    if syndrome(saved) != 0:
        raise LoadError("the saved desk is damaged")
    _, *words, store, _ = _SAVED.unpack(saved)
    return words, store


# ---------------------------------------------------------------- the desk

class Desk:
    """A reader and writer of frames under one set-up, with the record of the eight channels and their
    store inside.

    `length` is the frame length N, 13 to 2,048; `spacecraft` 0 to 1,023; `error_control` says whether
    the last two octets of a frame are error control, True or False. A set-up outside its ranges is
    refused at once; an argument that is no whole number, or no truth value, is a TypeError. One thread at a
    time may use a desk.

    >>> Desk(length=12, spacecraft=171)
    Traceback (most recent call last):
      ...
    scowdeck.Refused: refusal 1: N or the spacecraft number is outside its range
    """

    def __init__(self, length, spacecraft, error_control=False):
        self._set_up = _set_up(length, spacecraft, error_control)
        self._record = (ctypes.c_uint32 * RECORD_WORDS)()
        self._store = (ctypes.c_uint8 * STORE_OCTETS)()
        self._output = (ctypes.c_uint8 * OUTPUT_OCTETS)()
        self._test()

    def _call(self, frame):
        answer = (ctypes.c_uint32 * READ_WORDS)()
        number = library().scowdeck_read(
            *self._set_up, self._record, RECORD_WORDS, self._store, STORE_OCTETS,
            self._output, OUTPUT_OCTETS, frame, len(frame), answer, READ_WORDS)
        return number, answer

    def _test(self):
        """Has the library test set-up, store, output and record: if they pass, the empty frame is
        refused by 5, and nothing is changed either way."""
        number, _ = self._call(b"")
        if number != 5:
            raise Refused(number)

    def read(self, frame):
        """Reads one frame and gives its Report, or raises Refused, and then nothing was changed.

        >>> desk = Desk(length=20, spacecraft=171)
        >>> report = desk.read(bytes.fromhex("0AB60B061FFE" + 14 * "55"))
        >>> report.kind.name, report.channel, report.packets
        ('IDLE', 3, ())
        """
        number, answer = self._call(_octets(frame))
        if number != 0:
            raise Refused(number)
        (_, kind, spacecraft, channel, flagged, master_count, channel_count, secondary, synchronisation, order,
         segment, pointer, word, gap, delivered, idle, broken, disagreement, foreign, oversize) = answer
        return Report(Kind(kind), spacecraft, channel, master_count, channel_count, bool(secondary),
                      bool(synchronisation), bool(order), segment, pointer, word if flagged else None, gap,
                      self._packets(delivered), idle, broken, disagreement, foreign, oversize)

    def _packets(self, delivered):
        """The packets that stand end to end in the output; a packet's length field is its total less 7."""
        output, packets, at = memoryview(self._output).cast("B"), [], 0
        for _ in range(delivered):
            total = 256 * output[at + 4] + output[at + 5] + 7
            packets.append(bytes(output[at:at + total]))
            at += total
        return tuple(packets)

    def write(self, channel, run, place=Place(), control_word=None):
        """Writes one frame from a run of whole packets; gives the frame and the next Place, or raises
        Refused. Nothing of the desk is used but its set-up.

        Call on with the place that came back until its offset is the run's end. Room after the run is
        filled with an idle packet; with nothing left to send an idle frame is written.

        >>> desk, place, frames = Desk(length=64, spacecraft=5, error_control=True), Place(), []
        >>> run = bytes.fromhex("0123C005005F") + bytes(96)
        >>> while place.offset < len(run):
        ...     frame, place = desk.write(1, run, place, control_word=0xCAFE)
        ...     frames.append(frame)
        >>> [syndrome(frame) for frame in frames], place
        ([0, 0], Place(offset=102, left_over=5, master_count=2, channel_count=2))
        """
        run, output = _octets(run), (ctypes.c_uint8 * self._set_up[0])()
        answer = (ctypes.c_uint32 * WRITE_WORDS)()
        number = library().scowdeck_write(
            *self._set_up, _number(channel, "channel"), _bits(place.master_count, 8, "master_count"),
            _bits(place.channel_count, 8, "channel_count"), *_word(control_word), run, len(run),
            _number(place.offset, "offset"), _number(place.left_over, "left_over"), output, len(output),
            answer, WRITE_WORDS)
        if number != 0:
            raise Refused(number)
        return bytes(output), Place(*answer[1:])

    def busy(self):
        """Which channels have a packet under way, as a Busy."""
        answer = (ctypes.c_uint32 * BUSY_WORDS)()
        library().scowdeck_busy(self._record, RECORD_WORDS, answer, BUSY_WORDS)
        return Busy(*answer)

    def save(self):
        """Record and store together, as octets to keep for `Desk.load`. The set-up is not in them."""
        return _pack(self._record, self._store)

    @classmethod
    def load(cls, saved, length, spacecraft, error_control=False):
        """A desk that goes on where the saved one stood. The set-up must be that of the saved one:
        another is not found out. Octets that are not a whole saved desk, or a damaged one, are a
        LoadError; a record that breaks the paper's rules is Refused by 4.

        >>> Desk.load(b"SCOWDECK", length=20, spacecraft=171)
        Traceback (most recent call last):
          ...
        scowdeck.LoadError: a saved desk has 32907 octets, and not 8
        """
        words, store = _unpack(_octets(saved))
        desk = cls(length, spacecraft, error_control)
        desk._record[:] = words
        ctypes.memmove(desk._store, store, STORE_OCTETS)
        desk._test()
        return desk

    def __repr__(self):
        return "Desk(length=%d, spacecraft=%d, error_control=%s)" % (*self._set_up[:2], bool(self._set_up[2]))
