#!/usr/bin/env python3
"""What the program scowdeck must print of a recording, from the independent model.

    python3 tests/sample_report.py FILE LENGTH SPACECRAFT yes|no [OUT]

With OUT, the channels' files that the program wrote are compared with the model's packets too.
"""
import sys

import model

WORDS = {
    5: "the frame is not LENGTH octets",
    6: "the frame is damaged: its check fails",
    7: "the frame version is not 00",
    8: "the frame is of another spacecraft",
    9: "the secondary header's version is not 00",
    10: "the frame has no room for data",
    11: "the order flag or segment id is not that of packets",
    12: "the first header pointer lies past the data field",
}
KINDS = {1: "packets", 2: "idle", 3: "private"}
COUNTS = ["idle", "broken", "disagreement", "foreign", "oversize"]


def pairs(*given):
    return " ".join("%s=%s" % pair for pair in given)


class Desk:
    def __init__(self):
        self.channels = [dict(model.FRESH) for _ in range(8)]
        self.store = bytes(32768)
        self.sums = [dict.fromkeys(["frames", "gaps", "missing", "delivered"] + COUNTS, 0) for _ in range(8)]
        self.files = [b""] * 8
        self.refused = 0

    def frame(self, number, set_up, octets):
        code, h, reading = model.read_frame(*set_up, self.channels, self.store, bytes(6144), octets)
        if code:
            self.refused += 1
            return pairs(("frame", number), ("octets", len(octets)), ("refused", code)) + ' why="%s"' % WORDS[code]
        v, part = h["channel"], model.PART
        self.channels[v] = reading.channel
        self.store = self.store[:part * v] + reading.part + self.store[part * v + part:]
        self.files[v] += b"".join(reading.delivered)
        self.count(v, reading)
        word = "%08x" % h["word"] if h["flagged"] else "none"
        return pairs(("frame", number), ("channel", v), ("master", h["master"]), ("count", h["count"]),
                     ("pointer", h["pointer"]), ("word", word), ("kind", KINDS[reading.kind]),
                     ("gap", reading.counts["gap"]), ("delivered", len(reading.delivered)),
                     *((name, reading.counts[name]) for name in COUNTS))

    def count(self, v, reading):
        sums, gap = self.sums[v], reading.counts["gap"]
        sums["frames"] += 1
        sums["gaps"] += 1 if gap else 0
        sums["missing"] += gap
        sums["delivered"] += len(reading.delivered)
        for name in COUNTS:
            sums[name] += reading.counts[name]

    def channel(self, v):
        octets = self.files[v]
        value = "%04x" % model.check(octets) if len(octets) < 65536 else "none"
        return pairs(("channel", v), *self.sums[v].items(), ("octets", len(octets)), ("check", value), ("saved", "yes"))

    def end(self, frames):
        busy = [v for v, c in enumerate(self.channels) if c["state"] != "hunting" and c["number"]]
        return "end " + pairs(("frames", frames), ("refused", self.refused), ("busy_mask", sum(2**v for v in busy)),
                              ("busy_channels", len(busy)), ("lowest_busy", min(busy, default=8)),
                              ("result", "complete"))


def main(path, length, spacecraft, error_control, out=None):
    set_up = (int(length), int(spacecraft), error_control == "yes")
    with open(path, "rb") as recording:
        octets = recording.read()
    desk = Desk()
    frames = [octets[i:i + set_up[0]] for i in range(0, len(octets), set_up[0])]
    for number, frame in enumerate(frames, 1):
        print(desk.frame(number, set_up, frame))
    for v in range(8):
        print(desk.channel(v))
    print(desk.end(len(frames)))
    if out is None:
        return
    for v in range(8):
        with open("%s.%d" % (out, v), "rb") as written:
            if written.read() != desk.files[v]:
                sys.exit("%s.%d does not hold the packets of channel %d" % (out, v, v))


if __name__ == "__main__":
    main(*sys.argv[1:])
