"""Random hostile inputs, each made by a `random.Random` alone: streams and files that were recorded or made up, and then spoiled."""
import os
import struct

import rows

TOP = os.path.dirname(os.path.dirname(os.path.dirname(os.path.abspath(__file__))))
CRATES = os.path.join(TOP, "crates")


def recorded(*path):
    with open(os.path.join(CRATES, *path), "rb") as file:
        return file.read()


# ---- streams

def sessions():
    """What went each way in the recorded sessions: pairs of a server's bytes and a client's."""
    for session in recorded("test_programs", "data", "sessions").decode().split("session ")[1:]:
        back, front = [], []
        for line in session.splitlines():
            word, _, rest = line.partition(" ")
            if word in ("bytes", "sent"):
                (back if word == "bytes" else front).append(bytes.fromhex(rest))
        yield b"".join(back), b"".join(front)


def vectors():
    """The bytes of each vector: pairs of the side and the bytes."""
    for line in recorded("test_programs", "data", "vectors").decode().splitlines():
        side, _, digits = line.partition("#")[0].strip().partition(" ")
        if side:
            yield side, bytes.fromhex(digits.replace(" ", ""))


def cut_messages(data, first):
    """The messages of a stream, with its first packets where it begins with some."""
    found = []
    while data:
        head = 0 if first else 1
        size = head + int.from_bytes(data[head:head + 4], "big")
        found.append(data[:size])
        first = first and data[4:8] != b"\0\3\0\0"
        data = data[size:]
    return found


class Streams:
    def __init__(self):
        self.back, self.front, self.first, self.pairs = [], [], [], []
        for back, front in sessions():
            self.pairs.append((cut_messages(back, False), cut_messages(front, True)))
            self.back += cut_messages(back, False)
            self.take_front(cut_messages(front, True))
        self.take_front(cut_messages(bytes.fromhex(recorded("test_ends", "recorded", "psql.hex").decode()), True))
        for side, data in vectors():
            {"back": self.back, "front": self.front, "first": self.first}[side].append(data)
        # each kind of message as often as another
        self.back, self.front = by_tag(self.back), by_tag(self.front)

    def take_front(self, messages):
        for message in messages:
            (self.first if message[0] == 0 else self.front).append(message)

    def make(self, chance, front):
        packets = [chance.choice(self.first) for _ in range(chance.choice((0, 1, 1, 1, 2)))] if front else []
        if packets and chance.random() < 0.7:
            packets.append(b"\0\0\0\x10\0\3\0\0user\0u\0\0")
        kinds = list((self.front if front else self.back).values())
        messages = [chance.choice(chance.choice(kinds)) for _ in range(chance.choice((0, 1, 2, 3, 5, 10, 40)))]
        return spoiled_messages(chance, packets + messages)


    def make_both(self, chance):
        """The streams of a client and of a server: a recorded session's or made up, maybe with requests for encryption before, and spoiled."""
        way = chance.random()
        if way < 0.3:
            back, front = chance.choice(self.pairs)
            back, front = list(back), list(front)
        elif way < 0.8:
            count = chance.choice((0, 1, 3, 8, 20, 40))
            front = [chance.choice(self.first) for _ in range(chance.choice((0, 0, 0, 1)))] + [b"\0\0\0\x10\0\3\0\0user\0u\0\0"]
            front += [plain(chance, FRONT_TAGS) for _ in range(count)]
            back = [plain(chance, BACK_TAGS) for _ in range(chance.choice((0, count, 2 * count)))]
        else:
            front, back = [self.make(chance, True)], [self.make(chance, False)]
        for _ in range(chance.choice((0, 0, 1, 1, 2))):
            front.insert(0, chance.choice((b"\0\0\0\x08\x04\xd2\x16\x2f", b"\0\0\0\x08\x04\xd2\x16\x30", b"\0\0\0\x08\x04\xd2\0\0")))
            if chance.random() < 0.9:
                back.insert(0, chance.choice((b"N", b"N", b"N", b"S", b"G", b"E", b"")))
        return tuple(b"".join(side) if chance.random() < 0.7 else spoiled_messages(chance, [part for part in side if part]) for side in (front, back))


FRONT_TAGS = b"QQQSSSPBEDHHFpcccfdddddX~"
BACK_TAGS = b"ZZZZRRGGWWEEDTC12NSAdcs~"


def plain(chance, tags):
    """A message with one of these tags, whose body is often none that the tables have: whose turn it is doesn't depend on that."""
    tag = bytes([chance.choice(tags)])
    body = chance.choice((b"", b"\0", b"I", b"a\0", b"\0\0\0", chance.randbytes(chance.choice((1, 3, 4, 8)))))
    if tag == b"R" and chance.random() < 0.9:
        body = struct.pack(">I", chance.choice((0, 0, 3, 5, 7, 8, 10, 11, 12))) + chance.choice((b"", b"\1\2\3\4"))
    return tag + struct.pack(">I", len(body) + 4) + body


def foreign(chance, front):
    """A message that isn't of the tables of this library: of SASL, of a function call, of replication, of another version, or of any tag."""
    way = chance.randrange(6)
    body = chance.randbytes(chance.choice((0, 1, 4, 10, 99, 100, 101, 300)))
    if way == 0:
        body = "".join(chance.choice("aé\u0085\x1b'\\\t\0") for _ in range(chance.choice((1, 5, 60, 150)))).encode()
    tag = bytes([chance.choice(b"pF" if front else b"VWvR") if chance.random() < 0.6 else chance.randrange(256)])
    if way == 1:
        body = struct.pack(">i", chance.choice((2, 6, 7, 8, 9, 10, 11, 12, 13))) + chance.choice((b"", b"SCRAM-SHA-256\0\0", b"A\0B\xff\0\0", body))
    if way == 2:
        body = b"SCRAM-SHA-256\0" + struct.pack(">i", len(body)) + body
    return tag + struct.pack(">I", len(body) + 4) + body


def by_tag(messages):
    found = {}
    for message in messages:
        found.setdefault(message[:1], []).append(message)
    return found


NUMBERS = (0, 1, 2, 3, 4, 5, 7, 8, 15, 16, 255, 256, 9_999, 10_000, 10_001, 32_767, 32_768, 65_535, 1_073_741_823, 1_073_741_824, 0x7FFFFFFF)


def near(chance, number):
    """A number of 32 bits: one beside this one, or one at which something ends."""
    found = chance.choice((number + chance.choice((-2, -1, 1, 2)), chance.choice(NUMBERS), -chance.choice(NUMBERS), chance.getrandbits(32)))
    return found & 0xFFFFFFFF


def spoiled_messages(chance, messages):
    """The messages in one stream: some with another length, some with another body and the length of that one, some bytes spoiled."""
    messages = list(messages)
    for _ in range(chance.choice((0, 0, 1, 1, 2))):
        if messages:
            place = chance.randrange(len(messages))
            messages[place] = spoiled_message(chance, messages[place])
    data = b"".join(messages)
    for _ in range(chance.choice((0, 0, 0, 1, 1, 2, 4))):
        data = spoiled(chance, data)
    return data


def moved_messages(chance, messages):
    """The messages in one stream: as they are, or spoiled, or one is missing, doubled or in another place."""
    way = chance.random()
    if way < 0.4 or not messages:
        return b"".join(messages)
    if way < 0.7:
        return spoiled_messages(chance, messages)
    messages = list(messages)
    message = messages.pop(chance.randrange(len(messages)))
    for _ in range(chance.choice((0, 1, 1, 2))):
        messages.insert(chance.randint(0, len(messages)), message)
    return b"".join(messages)


def spoiled_message(chance, message):
    head = 0 if message[:1] == b"\0" else 1
    if len(message) < head + 4:
        return message
    way = chance.randrange(5)
    size = int.from_bytes(message[head:head + 4], "big")
    if way == 0:
        return message[:head] + struct.pack(">I", near(chance, size)) + message[head + 4:]
    if way == 1 and head:
        return bytes([chance.choice(b"RKSZTDCItENAGHdc123nsQPBEXfp\0!v")]) + message[1:]
    body = spoiled(chance, message[head + 4:])
    return message[:head] + struct.pack(">I", len(body) + 4) + body


def spoiled(chance, data):
    """The bytes with one part flipped, cut off, put in, doubled, or with a number of 16 or 32 bits changed."""
    way, at = chance.randrange(8), chance.randint(0, len(data))
    if way == 0:
        return data[:at]
    if way == 1:
        return data[:at] + chance.randbytes(chance.choice((1, 1, 2, 4, 9))) + data[at:]
    end = min(len(data), at + chance.choice((1, 1, 2, 4, 5, 20, 100)))
    if way == 2:
        return data[:at] + data[end:]
    if way == 3:
        return data[:end] + data[at:]
    if way == 4 and at + 4 <= len(data):
        return data[:at] + struct.pack(">I", near(chance, int.from_bytes(data[at:at + 4], "big"))) + data[at + 4:]
    if way == 5 and at + 2 <= len(data):
        return data[:at] + struct.pack(">H", near(chance, int.from_bytes(data[at:at + 2], "big")) & 0xFFFF) + data[at + 2:]
    if at == len(data):
        return data
    byte = chance.choice((data[at] ^ 1 << chance.randrange(8), chance.randrange(256), 0, 0xFF))
    return data[:at] + bytes([byte]) + data[at + 1:]


# ---- COPY files

PIECES = (b"a", b"b", b"n", b"N", b"x", b"41", b"7", b"0", b"\\", b"\\", b"\\N", b"\\.", b".", b"\t", b"\t", b"\n", b"\r", b"\r\n", b",", b"|", b"A", b"F",
          b"\0", b"\xff", b"\\x", b"\\101", b"\\8", b"\x08\x0b\x0c", b"\xc3\xa9", b" ")
DELIMITERS = (b"\t", b",", b"|", b"A", b"F", b" ", b"\x08", b"\x01", b"\x7f", b"N") * 3 + (b"x", b"\\", b".", b"0", b"\n", b"\r")
NULLS = (b"\\N", b"\\N", b"", b"x", b"-", b"\\\\", b"\\b", b"\\x4", b"NULL", b"\xc3\xa9") * 3 + (b"\\t", b"a,b", b"\\.", b"\\", b"\\\\\\", b"\t", b"A")


class Files:
    def __init__(self):
        self.kept = {kind: recorded("test_programs", "data", f"rows.{kind}") for kind in ("text", "binary")}

    def options(self, chance):
        """Two sides of the delimiter and the null mark, which are mostly those of files."""
        if chance.random() < 0.4:
            return b"\t", b"\\N"
        return chance.choice(DELIMITERS), chance.choice(NULLS)

    def row(self, chance, columns):
        count = columns if chance.random() < 0.98 else chance.randint(1, 5)
        return [None if chance.random() < 0.2 else b"".join(chance.choices(PIECES, k=chance.randint(0, 4))) for _ in range(count)]

    def make(self, chance, source):
        """A file, its number of columns, the delimiter and the null mark."""
        delimiter, null = self.options(chance)
        if chance.random() < 0.15:
            start = 0 if source == "binary" else chance.choice([0, *(at + 1 for at, byte in enumerate(self.kept["text"]) if byte == 10)])
            return self.spoiled(chance, self.kept[source][start:]), 3 if chance.random() < 0.95 else 2, delimiter, null
        columns = chance.choice((1, 1, 2, 2, 3, 7))
        table = [self.row(chance, columns) for _ in range(chance.choice((0, 1, 2, 3, 8)))]
        data = self.binary(chance, table) if source == "binary" else self.text(chance, table, delimiter, null)
        return self.spoiled(chance, data), columns, delimiter, null

    def spoiled(self, chance, data):
        for _ in range(chance.choice((0, 0, 1, 1, 2, 3))):
            data = spoiled(chance, data)
        return data

    def binary(self, chance, table):
        flags = chance.choice((0, 0, 0, 0, 1, 0x8000, 0x10000))
        extension = chance.randbytes(chance.choice((0, 0, 0, 1, 5)))
        body = b"".join(map(rows.binary_row, table))
        return rows.SIGNATURE + struct.pack(">II", flags, len(extension)) + extension + body + b"\xff\xff"

    def text(self, chance, table, delimiter, null):
        end = chance.choice((b"\n", b"\n", b"\r", b"\r\n"))
        if chance.random() < 0.2:
            return b"".join(chance.choices((*PIECES, delimiter, end, null), k=chance.randint(0, 30)))
        found = []
        for row in table:
            try:
                found.append(rows.text_line(row, delimiter, null)[:-1] + end)
            except rows.Fault:
                found.append(null + end)
        found.insert(chance.randint(0, len(found)), chance.choice((b"", b"", b"", b"\\." + end, end)))
        data = b"".join(found)
        return data[:-len(end)] if chance.random() < 0.2 else data
