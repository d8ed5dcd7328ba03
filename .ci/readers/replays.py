"""Recorded sessions some of whose server's bytes are spoiled, and what `test_programs sessions` writes of them, as docs/PROTOCOL.md tells it, without
a look at the program. It makes each session with a client and an early client, and cuts what comes in many ways."""
import ends
import inputs
import stream

LIMIT = 65_536  # of a length field
LONGEST = 400  # bytes of a request, or that come of it
READY = b"Z\0\0\0\5I".hex()
STEPS = ("parse", "bind", "describe", "execute", "close")


# ---- what is recorded

def sessions():
    """The lines of each session, up to its first request, and of each of its requests, with what comes of it."""
    for session in inputs.recorded("test_programs", "data", "sessions").decode().split("session ")[1:]:
        found, before = [[]], ""
        for line in session.splitlines()[1:]:
            word, _, rest = line.partition(" ")
            if word == "query" or word in (*STEPS, "sync") and before not in STEPS:
                found.append([])
            if word not in ("sent", "terminate"):
                found[-1].append((word, rest))
            before = word
        yield found


class Sessions:
    def __init__(self):
        self.starts, self.requests = [], []
        for start, *requests in sessions():
            self.starts.append(start)
            self.requests += [lines for lines in requests if all(len(rest) < 2 * LONGEST for _, rest in lines)]

    def make(self, chance):
        """The lines of a session, in which the server is ready in any status. Up to three times what comes is spoiled."""
        lines = [(word, fewer(chance, rest) if word == "bytes" else rest) for word, rest in chance.choice(self.starts)]
        for request in chance.choices(self.requests, k=chance.choice((0, 1, 2, 4, 8))):
            ready = b"Z\0\0\0\5" + chance.choice((b"I", b"T", b"E"))
            lines += [(word, rest.replace(READY, ready.hex())) for word, rest in request]
        places = [place for place, (word, _) in enumerate(lines) if word == "bytes"]
        # what comes to a start is spoiled less often
        for place in chance.choices(places, [1, *[3] * (len(places) - 1)], k=chance.choice((0, 1, 1, 2, 3))):
            messages = inputs.cut_messages(bytes.fromhex(lines[place][1]), False)
            lines[place] = "bytes", inputs.moved_messages(chance, messages).hex()
        return lines


def fewer(chance, digits):
    """Most of the parameters that a start tells are left out."""
    messages = inputs.cut_messages(bytes.fromhex(digits), False)
    return b"".join(message for message in messages if message[:1] != b"S" or chance.random() < 0.1).hex()


def pieces(chance, data):
    """The bytes in pieces of random sizes."""
    at, most = 0, chance.choice((1, 3, 9, 20, 20))
    while at < len(data):
        end = at + chance.randint(1, most)
        yield data[at:end]
        at = end


# ---- calls

class Settings:
    def __init__(self, parameters, password):
        self.options = [tuple(parameter.encode().split(b"=", 1)) for parameter in parameters.split(" ")]
        self.user, self.database = (self.take(name) for name in (b"user", b"database"))
        self.password = None if password is None else password.encode()

    def take(self, wanted):
        found = [value for name, value in self.options if name == wanted]
        self.options = [pair for pair in self.options if pair[0] != wanted]
        return found[-1] if found else None


def numbers(text):
    return [int(number) for number in text.split(b",") if number]


def step_of(word, rest):
    parts = [part.encode() for part in rest.split(" ", {"parse": 2, "bind": 4}.get(word, 1))]
    parts += [b""] * (5 - len(parts))
    if word == "parse":
        return [word, parts[0], parts[2], numbers(parts[1])]
    if word == "bind":
        values = [None if value == b"null" else bytes.fromhex(value[1:].decode()) for value in parts[3].split(b",") if value]
        return [word, parts[0], parts[1], values, numbers(parts[2]), numbers(parts[4])]
    return [word, parts[1], int(parts[0])] if word == "execute" else [word, parts[0].decode(), parts[1]]


class Client(ends.Client):
    """A client, and which messages an early one gives."""

    def __init__(self, settings):
        super().__init__(settings)
        self.told = b""

    def part(self, kind, *rest):
        # of a copy the formats are written too
        super().part(kind, *rest, *([self.open[1][1]] if kind in ("copyout", "copyin") else []))

    def hear(self, piece):
        """What is sent for a piece, and the line of its fault, or None."""
        self.data += piece
        sent = b""
        try:
            while found := stream.next_message(stream.BACK, self.data, 0, LIMIT):
                tag, _, held, end = found
                message, self.data = self.data[:end], self.data[end:]
                is_given = self.phase != "starting"
                sent += self.take(tag, held) or b""
                self.told += message * is_given
            return sent, None
        except stream.Fault as fault:
            line = f"refused F1 Wire {fault}\n".encode()
        except ends.Fault as fault:
            line = refusal(fault.args[0], tag, held)
        self.phase = "closed"
        return sent, line

    def call(self, word, rest, steps):
        """What is sent, or why the call is refused."""
        if word == "query":
            return self.ask(["query", rest.encode()])
        if word == "sync":
            return self.ask(["group", [step_of(*step) for step in steps]])
        if word in ("chunk", "done", "fail"):
            return self.copy({"chunk": b"d", "done": b"c", "fail": b"f"}[word], bytes.fromhex(rest) if word == "chunk" else rest.encode())
        return self.terminate()


# ---- what is written

def refusal(code, tag, held):
    if code == "F5":
        return fields_line(b"refused", held)
    more = {"F2": f"Unexpected {tag[0]}", "F3": f"UnsupportedAuth {held[0] if held else 0}", "F4": "PasswordWanted", "F6": "ServerEnd"}[code]
    return f"refused {code} {more}\n".encode()


def fields_line(name, fields):
    return b" ".join([name, *(text for wanted in b"SCM" for code, text in fields if code == wanted)]) + b"\n"


def row_line(row):
    return b"row " + b"|".join(b"null" if value is None else b"=" + value for value in row) + b"\n"


def listed(values):
    return ",".join(map(str, values)).encode()


def columns_line(names):
    return b"columns " + b"|".join(names) + b"\n"


def copy_line(name, binary, formats):
    return b"%s %d %s\n" % (name, binary, listed(formats))


def part_lines(part):
    kind, *rest = part
    if kind == "rows":
        return [columns_line(rest[1]), *map(row_line, rest[2]), b"complete %s\n" % rest[0]]
    if kind == "command":
        return [b"complete %s\n" % rest[0]]
    if kind == "copyout":
        data = [b"data %s\n" % chunk.hex().encode() for chunk in rest[3]]
        return [copy_line(b"copy out", rest[1], rest[4]), *data, b"copied\n", b"complete %s\n" % rest[0]]
    if kind == "copyin":
        return [copy_line(b"copy in", rest[0], rest[4]), b"complete %s\n" % rest[3]]
    if kind == "described":
        types = [] if rest[0] is None else [b"parameters %s\n" % listed(rest[0])]
        return [*types, b"no columns\n" if rest[1] is None else columns_line(rest[1])]
    if kind == "executed":
        return [*map(row_line, rest[2]), b"complete %s\n" % rest[1] if rest[0] == "complete" else rest[0].encode() + b"\n"]
    return [{"shut": b"closed\n"}.get(kind, kind.encode() + b"\n")]


def aside_line(aside):
    if aside[0] == "notice":
        return fields_line(b"notice", aside[1])
    if aside[0] == "set":
        return b"parameter %s=%s\n" % tuple(aside[1:])
    return b"notification %d %s %s\n" % tuple(aside[1:])


def outcome_lines(outcome):
    asides, parts, error, status = outcome
    lines = [line for part in parts for line in part_lines(part)]
    lines += [] if error is None else [fields_line(b"error", error)]
    return [*lines, *map(aside_line, asides), b"ready %s\n" % status.encode()]


def lines_of(chance, recorded):
    """The lines, in which what comes is cut into pieces, up to an end by the client's call."""
    for word, rest in recorded.make(chance):
        if word == "bytes":
            yield from (("bytes", piece.hex()) for piece in pieces(chance, bytes.fromhex(rest)))
        else:
            # a SHOW would be compared with what the client knows, which may be spoiled
            yield word, rest.replace("SHOW ", "SEEK ") if word == "query" else rest
    yield "terminate", ""


def make(chance, recorded):
    """The lines of a session, what is written of it, and how it ends. It ends where a call is refused or the client is closed."""
    (_, parameters), *lines = lines_of(chance, recorded)
    password = lines.pop(0)[1] if lines[0][0] == "password" else None
    client, fault, steps = Client(Settings(parameters, password)), None, []
    given = ["session spoiled", f"start {parameters}", *([] if password is None else [f"password {password}"])]
    given.append(f"sent {client.start().hex()}")
    for word, rest in lines:
        if word in STEPS:
            steps.append((word, rest))
            continue
        sent, fault = client.hear(bytes.fromhex(rest)) if word == "bytes" else (client.call(word, rest, steps), None)
        if isinstance(sent, str):
            word, sent = "terminate", client.terminate()
        given += [" ".join(step) for step in steps] if word == "sync" else []
        given.append(f"{word} {rest}" if word in ("query", "chunk", "fail", "bytes") else word)
        given += [f"sent {sent.hex()}"] if sent else []
        given.append(f"told {client.phase} {client.told.hex()}")
        steps, client.told = [], b""
        if fault or word == "terminate":
            break
    written = [b"session spoiled\n", *(line for _, outcome in client.settled for line in outcome_lines(outcome)), fault or b""]
    request, error = client.lost()
    written.append(b"" if request is None else b"unsettled, with an error\n" if error else b"unsettled\n")
    ending = "well" if fault is None else " ".join(fault.decode("latin-1").split()[1:3])
    return "".join(line + "\n" for line in given).encode(), b"".join(written), ending
