"""The messages and first packets of a stream, and what `pgpipe show` says of one, as docs/PROTOCOL.md tells it. Read from the page, and
from PostgreSQL's chapter on the protocol, without a look at the program."""
import struct

GREATEST = 1_073_741_823
GREATEST_PACKET = 10_000


class NoLayout(Exception):
    """The bytes aren't of the layout."""


class Bytes:
    """Takes the parts of a body off its front."""

    def __init__(self, data):
        self.data, self.at = data, 0

    def take(self, count):
        if self.at + count > len(self.data):
            raise NoLayout
        self.at += count
        return self.data[self.at - count:self.at]

    def int16(self):
        return struct.unpack(">h", self.take(2))[0]

    def int32(self):
        return struct.unpack(">i", self.take(4))[0]

    def count(self):
        return struct.unpack(">H", self.take(2))[0]

    def oid(self):
        return struct.unpack(">I", self.take(4))[0]

    def text(self):
        end = self.data.find(b"\0", self.at)
        if end < 0:
            raise NoLayout
        found = self.data[self.at:end]
        self.at = end + 1
        return found

    def value(self):
        size = self.int32()
        if size < -1:
            raise NoLayout
        return None if size == -1 else self.take(size)

    def many(self, one):
        return [one() for _ in range(self.count())]

    def rest(self):
        return self.take(len(self.data) - self.at)

    def end(self):
        if self.at != len(self.data):
            raise NoLayout


def nothing(body):
    return ()


def authentication(body):
    code = body.int32()
    if code == 5:
        return code, body.take(4)
    return (code, b"") if code in (0, 3) else (code, body.rest())


def fields(body):
    found = []
    while code := body.take(1)[0]:
        found.append((code, body.text()))
    return found


def one_of(letters):
    def letter(body):
        found = body.take(1)
        if found not in letters:
            raise NoLayout
        return found
    return letter


def copy_head(body):
    return one_of((b"\0", b"\1"))(body) == b"\1", body.many(body.int16)


def column(body):
    return body.text(), body.oid(), body.int16(), body.oid(), body.int16(), body.int32(), body.int16()


def named(body):
    return one_of((b"S", b"P"))(body), body.text()


BACK = {
    b"R": authentication,
    b"K": lambda body: (body.int32(), body.int32()),
    b"S": lambda body: (body.text(), body.text()),
    b"Z": one_of((b"I", b"T", b"E")),
    b"T": lambda body: body.many(lambda: column(body)),
    b"D": lambda body: body.many(body.value),
    b"C": Bytes.text,
    b"t": lambda body: body.many(body.oid),
    b"E": fields,
    b"N": fields,
    b"A": lambda body: (body.int32(), body.text(), body.text()),
    b"G": copy_head,
    b"H": copy_head,
    b"d": Bytes.rest,
    **{tag: nothing for tag in (b"I", b"1", b"2", b"3", b"n", b"s", b"c")},
}
FRONT = {
    b"Q": Bytes.text,
    b"P": lambda body: (body.text(), body.text(), body.many(body.oid)),
    b"B": lambda body: (body.text(), body.text(), body.many(body.int16), body.many(body.value), body.many(body.int16)),
    b"D": named,
    b"C": named,
    b"E": lambda body: (body.text(), body.int32()),
    b"d": Bytes.rest,
    b"f": Bytes.text,
    b"p": Bytes.text,
    **{tag: nothing for tag in (b"S", b"H", b"X", b"c")},
}


def read(layout, data):
    body = Bytes(data)
    found = layout(body)
    body.end()
    return found


def pairs(body):
    found = []
    while name := body.text():
        found.append((name, body.text()))
    return found


FIRST = {
    196608: ("startup", pairs),
    80877102: ("cancel", lambda body: (body.int32(), body.int32())),
    80877103: ("ssl", nothing),
    80877104: ("gss", nothing),
}


class Fault(Exception):
    """What stands in the place of a message, as W1 to W5 name it."""


def next_message(layouts, data, at, limit=GREATEST):
    """The tag, the body, what the body holds, and where the next message begins; None where none is whole."""
    if len(data) < at + 5:
        return None
    tag = data[at:at + 1]
    if tag not in layouts:
        raise Fault(f"W1 UnknownTag {tag[0]}")
    size = struct.unpack_from(">i", data, at + 1)[0]
    if size < 4:
        raise Fault(f"W2 ShortLength {size}")
    if size > limit:
        raise Fault(f"W3 LongLength {size}")
    end = at + 1 + size
    if len(data) < end:
        return None
    body = data[at + 5:end]
    try:
        return tag, body, read(layouts[tag], body), end
    except NoLayout:
        raise Fault(f"W4 BadBody {tag[0]}") from None


def next_packet(data, at):
    """The kind, the bytes after the length, what they hold, and where what comes next begins; None where no packet is whole."""
    if len(data) < at + 4:
        return None
    size = struct.unpack_from(">i", data, at)[0]
    if size < 8:
        raise Fault(f"W2 ShortLength {size}")
    if size > GREATEST_PACKET:
        raise Fault(f"W3 LongLength {size}")
    if len(data) < at + 8:
        return None
    code = struct.unpack_from(">i", data, at + 4)[0]
    if code not in FIRST:
        raise Fault(f"W5 BadFirst {code}")
    if len(data) < at + size:
        return None
    kind, layout = FIRST[code]
    try:
        return kind, data[at + 4:at + size], read(layout, data[at + 8:at + size]), at + size
    except NoLayout:
        raise Fault("W4 BadBody 0") from None


def show(data, front):
    """What is printed, what is said on standard error, and the status."""
    lines, at, packets, ended = [], 0, front, False
    layouts = FRONT if front else BACK
    try:
        while not ended:
            found = next_packet(data, at) if packets else next_message(layouts, data, at)
            if found is None:
                break
            head, body, _, end = found
            head = head if packets else head.decode()
            size = len(body) + 4
            lines.append(f"{head} {size} {body.hex() or '-'}\n")
            at = end
            packets, ended = packets and head != "startup", packets and head == "cancel"
    except Fault as fault:
        return "".join(lines).encode(), f"pgpipe: {fault}\n".encode(), 2
    if at < len(data):
        return "".join(lines).encode(), f"pgpipe: rest {len(data) - at}\n".encode(), 2
    return "".join(lines).encode(), b"", 0
