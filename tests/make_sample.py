#!/usr/bin/env python3
"""Writes the sample recording, the same octets each time.

    python3 tests/make_sample.py > crates/scowdeck/data/recording.bin

Frames of 64 octets with error control, spacecraft 171. Each channel shows something else:

    0  short packets with control words, a lost frame, a frame that comes twice
    1  packets over several frames, one of them damaged; a packet is under way at the end
    2  a packet above 4096 octets, which is passed over and is under way at the end
    3  secondary headers, idle frames between packets, idle packets
    4  a header that is no source packet's
    5  private frames
    6  a pointer that does not agree with the packet under way
    7  nothing

Between them stand a frame of another spacecraft and one for each other cause of a refusal; the last
frame is cut short. Headers and checks are those of the independent model.
"""
import sys

from model import FRAME_HEADER, PACKET_HEADER, check, joined

N = 64
SPACECRAFT = 171


def packet(application, sequence, total, version=0):
    """A packet of so many octets; its body counts up from its application id and sequence count."""
    header = joined([version, 0, 0, application, 3, sequence, total - 7], PACKET_HEADER)
    return header + bytes((application + 16 * sequence + i) % 256 for i in range(total - 6))


class Recording:
    def __init__(self):
        self.octets = b""
        self.master = 250

    def frame(self, channel, count, pointer, data, word=None, secondary=b"", version=0, spacecraft=SPACECRAFT,
              synchronisation=0, order=0, segment=3):
        """The octets of a frame, its check included; the master count goes up."""
        header = joined([version, spacecraft, channel, 0 if word is None else 1, self.master, count,
                         1 if secondary else 0, synchronisation, order, segment, pointer], FRAME_HEADER)
        self.master = (self.master + 1) % 256
        octets = header + secondary + data
        if word is not None:
            octets += joined([word], [32])
        octets += joined([check(octets)], [16])
        return octets

    def add(self, octets):
        self.octets += octets


class Channel:
    """A channel's packets, laid end to end into its frames. What is wanting is filled by idle packets."""

    def __init__(self, recording, number, count):
        self.recording, self.number, self.count = recording, number, count
        self.stream, self.starts, self.sent, self.fillers = b"", [], 0, 0

    def put(self, *packets):
        for octets in packets:
            self.starts.append(len(self.stream))
            self.stream += octets

    def room(self, word, secondary):
        return N - 6 - len(secondary) - (0 if word is None else 4) - 2

    def next(self, word=None, secondary=b"", shift=0):
        """The next frame, not yet recorded. shift spoils its pointer."""
        d = self.room(word, secondary)
        end = self.sent + d
        while len(self.stream) < end:
            self.put(packet(2047, self.fillers, max(7, end - len(self.stream))))
            self.fillers += 1
        here = [at - self.sent for at in self.starts if self.sent <= at < end]
        pointer = here[0] + shift if here else 2047
        octets = self.recording.frame(self.number, self.count, pointer, self.stream[self.sent:end], word, secondary)
        self.sent = end
        self.count = (self.count + 1) % 256
        return octets

    def send(self, times=1, **how):
        for _ in range(times):
            self.recording.add(self.next(**how))

    def idle(self):
        d = self.room(None, b"")
        self.recording.add(self.recording.frame(self.number, self.count, 2046, b"\x55" * d))
        self.count = (self.count + 1) % 256

    def private(self, data):
        self.recording.add(self.recording.frame(self.number, self.count, 5, data, synchronisation=1, order=1, segment=0))
        self.count = (self.count + 1) % 256


def damaged(octets, at, bit):
    return octets[:at] + bytes([octets[at] ^ bit]) + octets[at + 1:]


def sample():
    r = Recording()
    c = [Channel(r, v, 254 if v == 0 else 10 * v) for v in range(8)]

    c[0].put(*(packet(100, i, 20 + 3 * i) for i in range(8)))
    c[0].send(word=0x01000000)
    c[0].send(word=0x01000001)
    c[1].put(packet(201, 0, 200), packet(201, 1, 130), packet(201, 2, 90), packet(201, 3, 44), packet(201, 4, 400))
    c[1].send(2)
    c[3].put(packet(303, 0, 70))
    c[3].send(secondary=bytes([4]) + b"TIME")
    c[3].send(secondary=bytes([4]) + b"time")
    c[3].idle()
    c[1].send(2)

    # a frame of another spacecraft, and one for each other cause
    blank = b"\x00" * (N - 8)
    r.add(r.frame(0, 0, 0, blank, spacecraft=172))
    r.add(r.frame(0, 0, 0, blank, version=1))
    r.add(r.frame(0, 0, 0, blank[:-1], secondary=b"\x40"))
    r.add(r.frame(0, 0, 0, b"", secondary=bytes([55]) + b"\x00" * 55))
    r.add(r.frame(0, 0, 0, blank, order=1))
    r.add(r.frame(0, 0, N - 8, blank))

    # channel 1: a damaged frame in the middle of a packet, and what comes after it
    r.add(damaged(c[1].next(), 30, 0x10))
    c[1].send(2)

    # channel 0: a lost frame, and one that comes twice
    c[0].next(word=0x01000002)
    c[0].send(word=0x01000003)
    twice = c[0].next(word=0x01000004)
    r.add(twice)
    r.add(twice)

    c[2].put(packet(202, 0, 30), packet(202, 1, 5000))
    c[2].send(2)
    c[3].idle()
    c[3].put(packet(303, 1, 25), packet(303, 2, 12))
    c[3].send()

    # channel 4: another packet version behind a good packet
    c[4].put(packet(404, 0, 33), packet(404, 1, 15, version=1), packet(404, 2, 64), packet(404, 3, 21))
    c[4].send(3)

    c[5].private(b"private data".ljust(N - 8, b"."))
    c[5].private(b"and more".ljust(N - 8, b"."))

    # channel 6: the second frame's pointer names the second packet start in it, and not the first
    c[6].put(packet(606, 0, 70), packet(606, 1, 40), packet(606, 2, 19), packet(606, 3, 30))
    c[6].send()
    c[6].send(shift=40)
    c[6].send()

    c[2].send(2)
    c[1].send(4)
    c[0].send(2, word=0x01000005)
    c[2].send(1)
    r.add(c[0].next(word=0x01000006)[:40])
    return r.octets


if __name__ == "__main__":
    sys.stdout.buffer.write(sample())
