"""What `pgpipe show --frames` and `pgpipe show --decode` say of a stream, as docs/PGPIPE.md tells it. Read from the page, and from
PostgreSQL's chapter on the protocol, without a look at the program. What the bodies hold is read by stream.py."""
import struct

import stream

WIDTH = 100
BACK = {
    b"1": "ParseComplete", b"2": "BindComplete", b"3": "CloseComplete", b"A": "NotificationResponse", b"C": "CommandComplete",
    b"D": "DataRow", b"E": "ErrorResponse", b"G": "CopyInResponse", b"H": "CopyOutResponse", b"I": "EmptyQueryResponse",
    b"K": "BackendKeyData", b"N": "NoticeResponse", b"R": "Authentication", b"S": "ParameterStatus", b"T": "RowDescription",
    b"V": "FunctionCallResponse", b"W": "CopyBothResponse", b"Z": "ReadyForQuery", b"c": "CopyDone", b"d": "CopyData", b"n": "NoData",
    b"s": "PortalSuspended", b"t": "ParameterDescription", b"v": "NegotiateProtocolVersion",
}
FRONT = {
    b"B": "Bind", b"C": "Close", b"D": "Describe", b"E": "Execute", b"F": "FunctionCall", b"H": "Flush", b"P": "Parse", b"Q": "Query",
    b"S": "Sync", b"X": "Terminate", b"c": "CopyDone", b"d": "CopyData", b"f": "CopyFail",
}
REQUESTS = {
    0: "Ok", 2: "KerberosV5", 3: "CleartextPassword", 5: "MD5Password", 6: "SCMCredential", 7: "GSS", 8: "GSSContinue", 9: "SSPI",
    10: "SASL", 11: "SASLContinue", 12: "SASLFinal",
}
TYPES = {
    16: "bool", 17: "bytea", 19: "name", 20: "int8", 21: "int2", 23: "int4", 25: "text", 26: "oid", 114: "json", 142: "xml",
    700: "float4", 701: "float8", 705: "unknown", 869: "inet", 1000: "bool[]", 1005: "int2[]", 1007: "int4[]", 1009: "text[]",
    1015: "varchar[]", 1016: "int8[]", 1022: "float8[]", 1042: "bpchar", 1043: "varchar", 1082: "date", 1083: "time",
    1114: "timestamp", 1184: "timestamptz", 1186: "interval", 1231: "numeric[]", 1700: "numeric", 2249: "record", 2278: "void",
    2950: "uuid", 3802: "jsonb",
}
FIELDS = {
    "D": "detail", "H": "hint", "P": "position", "p": "internal position", "q": "internal query", "W": "where", "s": "schema",
    "t": "table", "c": "column", "d": "type", "n": "constraint", "F": "file", "L": "line", "R": "routine",
}


def shown(character, mark):
    if character in "\t\n\r":
        return {"\t": "\\t", "\n": "\\n", "\r": "\\r"}[character]
    if character in ("\\", mark):
        return "\\" + character
    if ord(character) < 32 or 127 <= ord(character) < 160:
        return "".join(f"\\x{byte:02x}" for byte in character.encode())
    return character


def escaped(data, mark=""):
    try:
        return "".join(shown(character, mark) for character in data.decode())
    except UnicodeDecodeError:
        return "".join(shown(chr(byte), mark) if byte < 128 else f"\\x{byte:02x}" for byte in data)


def quoted(data):
    if len(data) <= WIDTH:
        return f"'{escaped(data, chr(39))}'"
    cut = WIDTH
    while cut and 0x80 <= data[cut] < 0xC0:
        cut -= 1
    return f"'{escaped(data[:cut], chr(39))}'... ({len(data)} bytes)"


def listed(one, many):
    return f"({', '.join(map(one, many))})"


def value(data):
    return "NULL" if data is None else quoted(data)


def type_name(oid):
    return TYPES.get(oid, str(oid))


def form(code):
    return {0: "text", 1: "binary"}.get(code, str(code))


def column(found):
    name, _, _, oid, _, _, code = found
    return f"{escaped(name)} {type_name(oid)}" + (f" {form(code)}" if code else "")


def fields(found):
    first = {}
    for code, text in found:
        first.setdefault(chr(code), text)
    head = (first.get("V", first.get("S")), first.get("C"), first.get("M"))
    words = " ".join("-" if text is None else escaped(text) for text in head)
    for code, text in found:
        if chr(code) not in "SVCM":
            name = FIELDS.get(chr(code), shown(chr(code), "") if code < 128 else f"\\x{code:02x}")
            words += f", {name} {quoted(text)}"
    return words


def request(found):
    code, rest = found
    name = f"Authentication{REQUESTS[code]}" if code in REQUESTS else f"Authentication {code}"
    if code == 5:
        return f"{name} salt {rest.hex()}"
    if code != 10 or not rest:
        return name + (" (hidden)" if rest else "")
    names = rest[:-2] if rest.endswith(b"\0\0") else rest
    return f"{name} " + "".join(", " if not byte else shown(chr(byte), "") if byte < 128 else f"\\x{byte:02x}" for byte in names)


def copy_head(found):
    return ("binary " if found[0] else "text ") + listed(form, found[1])


BACK_FIELDS = {
    b"K": lambda found: f"process {found[0]} key (hidden)",
    b"S": lambda found: f"{escaped(found[0])} {quoted(found[1])}",
    b"Z": lambda found: {b"I": "idle", b"T": "in a transaction", b"E": "in a failed transaction"}[found],
    b"T": lambda found: listed(column, found),
    b"D": lambda found: listed(value, found),
    b"C": escaped,
    b"t": lambda found: listed(type_name, found),
    b"E": fields,
    b"N": fields,
    b"A": lambda found: f"process {found[0]} {escaped(found[1])} {quoted(found[2])}",
    b"G": copy_head,
    b"H": copy_head,
    b"d": quoted,
}


def target(found):
    return f"{ {b'S': 'statement', b'P': 'portal'}[found[0]] } {quoted(found[1])}"


def bind(found):
    portal, statement, formats, values, results = found
    return f"{quoted(portal)} to {quoted(statement)} {listed(value, values)} formats {listed(form, formats)} results {listed(form, results)}"


FRONT_FIELDS = {
    b"Q": escaped,
    b"P": lambda found: f"{quoted(found[0])} {listed(type_name, found[2])} {escaped(found[1])}",
    b"B": bind,
    b"D": target,
    b"C": target,
    b"E": lambda found: f"{quoted(found[0])} rows {found[1]}",
    b"d": quoted,
    b"f": quoted,
}


# ---- frames

class Frame:
    """A first packet, or a message with its tag; whether it is of the tables, and what its body holds then."""

    def __init__(self, data, is_packet, front):
        self.data, self.is_packet, self.front = data, is_packet, front
        self.body = data[8:] if is_packet else data[5:]
        self.tag = None if is_packet else data[:1]
        self.code = struct.unpack_from(">I", data, 4)[0] if is_packet else None
        layouts = stream.FIRST if is_packet else stream.FRONT if front else stream.BACK
        key = self.code if is_packet else self.tag
        self.found = None
        self.known = key in layouts
        if self.known:
            try:
                self.found = stream.read(layouts[key][1] if is_packet else layouts[key], self.body)
            except stream.NoLayout:
                self.known = False

    def tag_word(self):
        return self.tag.decode() if 33 <= self.tag[0] < 127 else f"\\x{self.tag[0]:02x}"

    def line(self):
        """In hexadecimal."""
        head = 0 if self.is_packet else 1
        if self.is_packet:
            word = stream.FIRST[self.code][0] if self.known else "?packet"
        else:
            word = self.tag_word() if self.known else f"?{self.tag_word()}"
        return f"{word} {len(self.data) - head} {self.data[head + 4:].hex() or '-'}"

    def words(self):
        """Decoded."""
        if self.is_packet:
            return self.packet_words()
        if self.tag == b"p" and self.front:
            return "PasswordMessage (hidden)" if self.known else self.other("SASLInitialResponse" if b"\0" in self.body else "SASLResponse", True)
        if self.tag == b"R" and not self.front and self.known:
            return request(self.found)
        names, more = (FRONT, FRONT_FIELDS) if self.front else (BACK, BACK_FIELDS)
        name = names.get(self.tag, "Unknown")
        if not self.known:
            return self.other(name, not self.front and self.tag in (b"R", b"K"))
        return name + (f" {more[self.tag](self.found)}" if self.tag in more else "")

    def packet_words(self):
        name = {80877102: "CancelRequest", 80877103: "SSLRequest", 80877104: "GSSENCRequest"}.get(self.code)
        if not self.known:
            version = f"{self.code >> 16}.{self.code & 0xFFFF}"
            name = name or (f"Request {self.code & 0xFFFF}" if self.code >> 16 == 1234 else f"StartupMessage {version}")
            return self.other(name, self.code == 80877102)
        if name is None:
            return "StartupMessage " + listed(lambda pair: f"{escaped(pair[0])} {quoted(pair[1])}", self.found)
        return f"{name} process {self.found[0]} key (hidden)" if self.code == 80877102 else name

    def other(self, name, hidden):
        word, size = ("packet", len(self.data)) if self.is_packet else (self.tag_word(), len(self.data) - 1)
        return f"{name}, not of the profile: {word} {size} {'(hidden)' if hidden else quoted(self.body)}"


def read(data, front):
    """The frames of a stream, what is said on standard error, and the status."""
    frames, at, packets = [], 0, front
    while True:
        head, least, most = (0, 8, stream.GREATEST_PACKET) if packets else (1, 4, stream.GREATEST)
        if len(data) < at + head + 4:
            break
        size = struct.unpack_from(">i", data, at + head)[0]
        if not least <= size <= most:
            fault = f"W2 ShortLength {size}" if size < least else f"W3 LongLength {size}"
            return frames, f"pgpipe: {fault}\n".encode(), 2
        if len(data) < at + head + size:
            break
        frame = Frame(data[at:at + head + size], packets, front)
        frames.append(frame)
        at += head + size
        if packets and frame.code == 80877102:
            break
        packets = packets and frame.code >> 16 == 1234
    if at < len(data):
        return frames, f"pgpipe: rest {len(data) - at}\n".encode(), 2
    return frames, b"", 0


def show(data, front, line):
    """What is printed, what is said, and the status, where `line` gives the line of a frame."""
    frames, said, status = read(data, front)
    return "".join(line(frame) + "\n" for frame in frames).encode(), said, status
