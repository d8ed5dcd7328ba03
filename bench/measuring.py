"""What the benchmarks have in common: rows as a server sends them, runs that are timed by turns, and instructions."""
import os
import re
import statistics
import struct
import subprocess
import tempfile

TOP = os.path.dirname(os.path.dirname(os.path.realpath(__file__)))
PROGRAM = os.environ.get("PGPIPE", os.path.join(TOP, "crates", "pgpipe", "out", "pgpipe"))
PIECES = os.path.join(TOP, "bench", "pieces")


def message(tag, body):
    return tag + struct.pack(">i", len(body) + 4) + body


def value(text):
    return struct.pack(">i", -1) if text is None else struct.pack(">i", len(text)) + text


def row(number):
    """Four values of text, one in seven of the third null."""
    third = None if number % 7 == 0 else b"some text value %d" % number
    values = [b"%d" % number, b"name %d" % (number % 1000), third, b"%.4f" % (number * 1.37)]
    return message(b"D", struct.pack(">H", 4) + b"".join(map(value, values)))


def write_rows(path, size):
    """Writes AuthenticationOk and rows up to some size in bytes."""
    with open(path, "wb") as out:
        written, number = out.write(message(b"R", bytes(4))), 0
        while written < size:
            written += out.write(row(number))
            number += 1


def measure(words, path, pieces=None):
    """The seconds of one run over the file, those of the processor, and the greatest memory in use in KiB; in pieces, if the words for them are given."""
    with tempfile.NamedTemporaryFile("r") as said, open(path, "rb") as source, open(os.devnull, "wb") as nothing:
        command = ["env", "time", "-f", "%e %U %S %M", "-o", said.name, *words]
        subprocess.run([PIECES, *pieces.split(), *command] if pieces else command, stdin=source, stdout=nothing, check=True)
        elapsed, user, system, memory = map(float, said.read().split())
    return elapsed, user + system, memory


def compare(name, path, works, runs):
    """A line for each work, which run by turns: medians, and the seconds of each over those of the first. A work has words, and what bench/pieces is
    told of the pieces that its input comes in, or None."""
    taken = {work: [] for work in works}
    for _ in range(runs):
        for work, (words, pieces) in works.items():
            taken[work].append(measure(words, path, pieces))
    least = None
    for work, found in taken.items():
        elapsed, processor, memory = (statistics.median(column) for column in zip(*found))
        least = least or elapsed
        print(f"{name}, {work:22}: {elapsed:6.2f} s, of the processor {processor:6.2f} s, {memory:7.0f} KiB; {elapsed / least:.1f} times the first", flush=True)


def instructions(words, path):
    """How many instructions a run over the file takes."""
    command = ["valgrind", "--tool=callgrind", "--callgrind-out-file=/dev/null", *words]
    with open(path, "rb") as source:
        counted = subprocess.run(command, stdin=source, stdout=subprocess.DEVNULL, stderr=subprocess.PIPE, text=True, check=True)
    return int(re.search(r"Collected : (\d+)", counted.stderr)[1])


def build():
    """Proves and builds the program, unless it is there or the environment names another."""
    if "PGPIPE" not in os.environ:
        subprocess.run([os.path.join(TOP, "pgpipe"), "build"], check=True)
