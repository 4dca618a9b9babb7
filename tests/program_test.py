#!/usr/bin/env python3
"""Runs ./scowdeck as a user would, and compares what it prints and writes with the independent model.

    python3 tests/program_test.py

The sample under several set-ups, a long recording, random frames, and everything that can go wrong with
files and words. That the sample and crates/scowdeck/stdout are what they should be is .ci/run's to say.
"""
import fcntl
import io
import os
import random
import re
import socket
import subprocess
import sys
import tempfile
from contextlib import redirect_stdout

import make_sample
import sample_report

HERE = os.path.dirname(os.path.dirname(os.path.abspath(__file__)))
PROGRAM = os.path.join(HERE, "scowdeck")
# What the command runs, once it is built.
BUILT = os.path.join(HERE, "target", "bin", "scowdeck")
DATA = os.path.join(HERE, "crates", "scowdeck", "data", "recording.bin")
checks = 0


def expect(condition, what):
    global checks
    checks += 1
    if not condition:
        sys.exit("program_test: " + what)


def octets_of(path):
    with open(path, "rb") as file:
        return file.read()


def run(*words, folder=HERE):
    ended = subprocess.run([PROGRAM, *words], cwd=folder, capture_output=True, check=False)
    return ended.returncode, ended.stdout.decode("ascii"), ended.stderr.decode("ascii", "replace")


def modelled(*words):
    """What the model prints; it also compares the channels' files."""
    text = io.StringIO()
    with redirect_stdout(text):
        sample_report.main(*words)
    return text.getvalue()


def same_as_model(folder, recording, length, spacecraft, error_control):
    out = tempfile.mkdtemp(dir=folder)
    words = (recording, length, spacecraft, error_control, os.path.join(out, "c"))
    status, printed, said = run(*words, folder=folder)
    expect(status == 0 and said == "", "%s: status %d, said %r" % (words, status, said))
    expect(printed == modelled(os.path.join(folder, recording), *words[1:]), "%s: not what the model prints" % (words,))


def random_frames(seed, count, n):
    """Octets that are frames of spacecraft 171 more often than not, with packet headers where the pointer says."""
    r = random.Random(seed)
    frames = b""
    for i in range(count):
        frame = bytearray(r.getrandbits(8) for _ in range(n))
        first = 171 << 4 | r.randrange(3) << 1 | r.choice([0, 0, 0, 1])
        pointer = r.choice([2047, 2046, 0, r.randrange(n - 6), r.randrange(n - 6)])
        last = r.choice([0] * 9 + [1]) << 15 | r.choice([0] * 19 + [1]) << 14 | 3 << 11 | pointer
        frame[0:2], frame[4:6] = first.to_bytes(2, "big"), last.to_bytes(2, "big")
        if r.random() < 0.9:
            frame[3] = i // 3 % 256
        if pointer < n - 6:
            header = [r.choice([0, 0, 0, 7, 8, 0x27]), r.choice([1, 255]), 192, i % 256, r.choice([0] * 5 + [16]), r.randrange(2 * n)]
            frame[6 + pointer:12 + pointer] = bytes(header)[:n - 6 - pointer]
        frames += bytes(frame[:n])
    return frames


def right_runs(folder):
    sample = make_sample.sample()
    status, printed, said = run()
    expect(status == 0 and printed == modelled(DATA, "64", "171", "yes", os.path.join(HERE, "out", "sample", "channel")),
           "the sample run: status %d, said %r" % (status, said))
    for set_up in [("64", "171", "yes"), ("64", "171", "no"), ("32", "171", "no"), ("13", "171", "no"),
                   ("2048", "1023", "no"), ("64", "172", "yes")]:
        same_as_model(folder, DATA, *set_up)
    for name, octets, set_up in [("a long one", sample[:42 * 64] * 200, ("64", "171", "yes")), ("empty", b"", ("64", "171", "yes")),
                                 ("random", random_frames(1, 2000, 40), ("40", "171", "no"))]:
        path = os.path.join(folder, name)
        with open(path, "wb") as file:
            file.write(octets)
        same_as_model(folder, name, *set_up)
    status, printed, said = run("--help")
    expect(status == 0 and said == "" and len(printed.split("\n")) <= 31 and max(map(len, printed.split("\n"))) <= 85, "--help")
    expect(run("-h") == (status, printed, said), "-h is not --help")
    expect(run("--help", "more")[1] == printed, "the script's help is not what the program prints")


def wrong_runs(folder):
    """Each is answered by a message and a status, and no file is made or changed."""
    taken = os.path.join(folder, "taken")
    with open(taken + ".3", "wb") as file:
        file.write(b"kept")
    good = [DATA, "64", "171", "yes", os.path.join(folder, "new")]
    for place, word, message in [(0, "nowhere", "cannot open nowhere: No such file or directory"),
                                 (1, "12", "refused=1"), (1, "2049", "refused=1"), (2, "1024", "refused=1"),
                                 (1, "", "LENGTH is a number"), (1, "6x4", "LENGTH is a number"), (1, "-64", "LENGTH is a number"),
                                 (1, "4294967360", "LENGTH is a number"), (1, "18446744073709551680", "LENGTH is a number"),
                                 (2, "17l", "SPACECRAFT is a number"), (3, "Yes", "CHECK is yes or no"),
                                 (4, "", "OUT is empty"), (4, "o" * 4094, "OUT is too long"), (4, "o" * 5000, "File name too long"),
                                 (4, taken, "cannot make %s.3: File exists" % taken),
                                 (4, "no/where", "cannot make no/where.0: No such file or directory")]:
        words = list(good)
        words[place] = word
        before = sorted(os.listdir(folder))
        status, printed, said = run(*words, folder=folder)
        expect(status == 1 and printed == "" and message in said and said.count("\n") == 1, "%s: said %r" % (words, said))
        expect(sorted(os.listdir(folder)) == before, "%s: files were made" % (words,))
    expect(octets_of(taken + ".3") == b"kept", "a file was overwritten")
    before = sorted(os.listdir(folder))
    for out in ["/", folder + "/", "new/"]:
        status, printed, said = run(*good[:4], out, folder=folder)
        expect(status == 2 and printed == "" and "OUT ends in /" in said and said.count("\n") == 1, "OUT %s: said %r" % (out, said))
    expect(sorted(os.listdir(folder)) == before, "an OUT that ends in /: files were made")
    status, printed, said = run(*good[:4])
    expect(status == 1 and "five words are wanted" in said, "four words: said %r" % said)
    status, printed, said = run(folder, *good[1:])
    expect(status == 1 and "Is a directory" in said and printed.endswith(" result=incomplete\n"), "a folder: said %r" % said)


# What the program writes at one go.
PIECE = re.compile(r' why="|"|\n|(?<= why=")[^"]+| (?:kind|saved|result)=[a-z]+| (?:word|check)=none|(?:end )?(?: |\b)[a-z_]+=|[0-9a-f]+')
PAGE = 4096
# Linux's F_SETPIPE_SZ, which Python's fcntl has from 3.10 on.
SET_SIZE = 1031


def in_pieces(folder):
    """Each piece goes out by itself; of a pipe of one page that fills up each that still fits comes out, and the others are lost alone."""
    words = (DATA, "64", "171", "yes")
    _, whole, _ = run(*words, os.path.join(tempfile.mkdtemp(dir=folder), "c"))
    pieces = PIECE.findall(whole)
    expect("".join(pieces) == whole, "what the program prints does not fall into pieces")
    there, here = socket.socketpair(socket.AF_UNIX, socket.SOCK_SEQPACKET)
    program = subprocess.Popen([BUILT, *words, os.path.join(tempfile.mkdtemp(dir=folder), "c")], cwd=folder, stdout=here)
    here.close()
    came = [each.decode("ascii") for each in iter(lambda: there.recv(PAGE), b"")]
    expect(program.wait() == 0 and came == pieces, "the pieces are not what goes out: %r" % came[:20])
    there.close()
    for room in [0, 1, 5, 7, 12, 40, 100, 101, 102, 103, 1000, 2000, PAGE]:
        fits, left = [], room
        for piece in pieces:
            if len(piece) <= left:
                fits.append(piece)
                left -= len(piece)
        there, here = os.pipe()
        filled = fcntl.fcntl(here, SET_SIZE, PAGE) - room
        os.write(here, b"." * filled)
        os.set_blocking(here, False)
        out = os.path.join(tempfile.mkdtemp(dir=folder), "c")
        ended = subprocess.run([BUILT, *words, out], cwd=folder, stdout=here, check=False)
        os.close(here)
        with open(there, "rb") as rest:
            came = rest.read()[filled:].decode("ascii")
        expect(ended.returncode == 0 and came == "".join(fits), "room for %d octets: %r came" % (room, came[-80:]))


def main():
    with tempfile.TemporaryDirectory() as folder:
        right_runs(folder)
        wrong_runs(folder)
        in_pieces(folder)
    print("program_test: ok, %d checks" % checks)


main()
