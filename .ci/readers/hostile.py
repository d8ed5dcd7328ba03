"""What `test_programs hostile` writes of a backend alone, some of whose client's bytes are spoiled, and of a pair to which random events happen, as
docs/PROTOCOL.md and docs/LOOP.md tell it, without a look at the program. The pair is that of `session`, which judges the theorem after each
event."""
import ends
import files
import inputs
import loops
import session

PHASES = {"copying": "CopyingIn", "I": "Idle", "T": "InBlock", "E": "Failed", "S": "Statement", "P": "Portal"}
FAULTS = {"F1": "Wire", "F2": "Unexpected", "F3": "UnsupportedAuth", "F4": "PasswordWanted", "F5": "StartupError", "F6": "ServerEnd"}
CLOSED_BY = {"breakclient": "Lost", "terminate": "Terminated"}


# ---- values as Rust's `{:?}` writes them

def shown(value):
    """A list, bytes, a number, a truth, a word, or a pair of a name and its list or its names and values."""
    if isinstance(value, bytes):
        return 'b"' + "".join(map(shown_byte, value)) + '"'
    if isinstance(value, list):
        return "[" + ", ".join(map(shown, value)) + "]"
    if isinstance(value, bool):
        return str(value).lower()
    if not isinstance(value, tuple):
        return str(value)
    name, held = value
    if isinstance(held, dict):
        return f"{name} {{ " + ", ".join(f"{key}: {shown(of)}" for key, of in held.items()) + " }"
    return f"{name}(" + ", ".join(map(shown, held)) + ")"


def shown_byte(byte):
    found = {9: "\\t", 10: "\\n", 13: "\\r", 34: '\\"', 39: "\\'", 92: "\\\\"}.get(byte)
    return found or (chr(byte) if 32 <= byte < 127 else f"\\x{byte:02x}")


def maybe(value):
    return "None" if value is None else ("Some", [value])


def fields(found):
    return [("ErrorField", {"code": code, "value": value}) for code, value in found]


def aside(found):
    if found[0] == "notice":
        return "Notice", [fields(found[1])]
    if found[0] == "set":
        return "Parameter", {"name": found[1], "value": found[2]}
    return "Notification", dict(zip(("process", "channel", "payload"), found[1:]))


def columns(names):
    return [("Column", {"name": name, "table_oid": 0, "attribute": 0, "type_oid": 25, "size": -1, "modifier": -1, "format": 0}) for name in names]


def head(binary, count):
    return "CopyHead", {"binary": binary, "formats": [int(binary)] * count}


def rows(found):
    return [list(map(maybe, row)) for row in found]


def part(found):
    kind, *rest = found
    if kind == "rows":
        return "Rows", {"columns": columns(rest[1]), "rows": rows(rest[2]), "tag": rest[0]}
    if kind == "command":
        return "Command", rest
    if kind == "copyout":
        return "CopyOut", {"head": head(*rest[1:3]), "chunks": rest[3], "tag": rest[0]}
    if kind == "copyin":
        return "CopyIn", {"head": head(*rest[:2]), "tag": rest[3]}
    if kind == "described":
        return "Described", {"parameters": maybe(rest[0]), "columns": maybe(rest[1] and columns(rest[1]))}
    if kind == "executed":
        return "Executed", {"rows": rows(rest[2]), "end": ("Complete", [rest[1]]) if rest[0] == "complete" else rest[0].capitalize()}
    return kind.capitalize()


def step(found):
    kind, *rest = found
    if kind == "bind":
        portal, statement, values, formats, result_formats = rest
        values = list(map(maybe, values))
        return "Bind", {"portal": portal, "statement": statement, "formats": formats, "values": values, "result_formats": result_formats}
    names = {"parse": ("name", "text", "types"), "execute": ("portal", "max_rows")}.get(kind, ("target", "name"))
    return kind.capitalize(), dict(zip(names, (PHASES[value] if isinstance(value, str) else value for value in rest)))


def group(request, outcome):
    asides, parts, error, status = outcome
    asked = ("Query", [request[1]]) if request[0] == "query" else ("Group", [list(map(step, request[1]))])
    ended = {"parts": list(map(part, parts)), "error": maybe(error and fields(error))}
    return {"request": asked, "outcome": ("Outcome", {**ended, "status": PHASES[status], "asides": list(map(aside, asides))})}


def log_line(log):
    return shown([("Logged", {**group(request, outcome), "loaded": chunks}) for request, outcome, chunks in log]) + "\n"


def back_phase(backend):
    return "CopyIn" if backend.phase == "copying" else backend.phase.capitalize()


# ---- a backend

def backend_line(backend, piece):
    """What is written where a piece is pushed, or, of None, a step is made."""
    sent = b""
    if backend.phase == "closed":
        answer = "Err(Closed)"
    elif piece is not None:
        backend.data += piece
        answer = "Ok(())"
    else:
        sent = backend.step()
        names = [] if backend.fault is None else backend.fault.split(" ")
        # K1 Wire W2 ShortLength 3, or K4 Unexpected 0
        answer = f"Err({'('.join(names[1::2])}({names[-1]}{')' * len(names[1::2])})" if names else f"Ok({shown(sent is not None)})"
    return f"{answer} {back_phase(backend)} {shown(sent or b'')}\n"


def backend_written(script, pieces):
    backend = ends.Backend(script)
    lines = [backend_line(backend, piece) for piece in pieces]
    return "".join([*lines, log_line(backend.log)]).encode(), "well" if backend.fault is None else backend.fault.rpartition(" ")[0]


def played(chance, calls_of):
    """The bytes of a script that can be played and of calls, and both of them read."""
    while True:
        script, calls, _ = loops.make(chance, b"")
        calls = calls_of(calls)
        try:
            found = files.Script(script), files.Calls(calls)
        except files.Refused:
            continue
        if found[0].fault() is None:
            return script, calls, *found


def cut(chance, data):
    places = sorted(chance.randint(0, len(data)) for _ in range(chance.choice((0, 1, 3, 9))))
    return [data[start:end] for start, end in zip([0, *places], [*places, len(data)]) if start < end]


STEPS = {
    "parsed": ["parse", b"", b"", []],
    "bound": ["bind", b"", b"", [], [], []],
    "executed": ["execute", b"", 0],
    "shut": ["close", "P", b""],
}


def request_of(chance, answer):
    """The bytes of a request, which mostly fits the answer."""
    client = ends.Client(None)
    client.phase = "ready"
    if answer is None or chance.random() < 0.1 or any(found[0] not in (*STEPS, "described") for found in answer.parts):
        return client.ask(["query", b"q"])
    steps = [STEPS.get(found[0]) or ["describe", "P" if found[1] is None else "S", b""] for found in answer.parts]
    more = [STEPS["parsed"]] * (answer.error is not None and chance.random() < 0.5)
    return client.ask(["group", steps + more])


def messages_of(chance, script, streams):
    """What a client sends to a backend that plays the script: what lets it in, and its messages."""
    first = [chance.choice(streams.first)] * (chance.random() < 0.25) + [b"\0\0\0\x10\0\3\0\0user\0u\0\0"]
    way, *secret = script.auth
    if way != "trust":
        first.append(ends.message(b"p", ends.text(secret[0] if way == "cleartext" else ends.md5_answer(b"u", *secret))))
    any_message = lambda: chance.choice(chance.choice(list(streams.front.values())))
    rest = []
    for answer in [*script.answers, None]:
        rest.append(request_of(chance, answer))
        if answer is not None and any(found[0] == "copyin" for found in answer.parts):
            rest += [ends.message(b"d", b"a")] * chance.choice((0, 1, 2, 3, 5))
            rest += [any_message()] * (chance.random() < 0.3)
            rest.append(chance.choice((ends.message(b"c"), ends.message(b"c"), ends.message(b"f", ends.text(b"no")), b"")))
        rest += [any_message()] * (chance.random() < 0.15)
    return first, rest


def make_backend(chance, streams):
    """A line of what happens to a backend, what is written, and how it ends."""
    data, _, script, _ = played(chance, lambda _: b"")
    first, rest = messages_of(chance, script, streams)
    begun = inputs.moved_messages(chance, first) if chance.random() < 0.2 else b"".join(first)
    pieces = []
    for piece in cut(chance, begun + inputs.moved_messages(chance, rest)):
        pieces += [piece, *[None] * chance.choice((0, 1, 5, 40))]
    pieces += [None] * 3
    words = ["backend", data.hex(), *("-" if piece is None else piece.hex() for piece in pieces)]
    return (" ".join(words) + "\n").encode(), *backend_written(script, pieces)


# ---- a pair

class Pair(session.Pair):
    def __init__(self, calls, script):
        super().__init__(calls, script)
        self.reached, self.closed_by = {"to_backend": b"", "to_client": b""}, None

    def delivered(self, way, deliver, count):
        waiting = getattr(self, way)
        moved = deliver(count)
        self.reached[way] += waiting[:len(waiting) - len(getattr(self, way))]
        return moved

    def deliver_back(self, count):
        return self.delivered("to_backend", super().deliver_back, count)

    def deliver_client(self, count):
        return self.delivered("to_client", super().deliver_client, count)

    def sent(self, way):
        return self.reached[way] + getattr(self, way)

    def phase(self):
        phase = self.client.phase
        return f"Closed({self.closed_by})" if phase == "closed" else PHASES.get(phase, phase.capitalize())

    def line(self, verb, argument=None):
        was_closed = self.client.phase == "closed"
        self.event(verb, argument, session.PIECE)
        if self.client.phase == "closed" and not was_closed:
            self.closed_by = CLOSED_BY.get(verb) or FAULTS[self.lines[-1][1].decode()]
        found = [self.phase(), back_phase(self.backend)]
        for way, is_broken in (("to_backend", self.backend_cut), ("to_client", self.client_cut)):
            found += [len(self.sent(way)), len(self.reached[way]), shown(is_broken)]
        return " ".join(map(str, [*found, len(self.client.settled), len(self.backend.log)])) + "\n"


def pair_written(script, calls):
    pair = Pair(calls, script)
    lines = [pair.line(*event) for event in calls.events]
    settled = shown([("Settled", group(*found)) for found in pair.client.settled]) + "\n"
    sent = [shown(list(pair.sent(way))) + "\n" for way in pair.reached]
    return "".join([*lines, settled, log_line(pair.backend.log), shown(pair.handed) + "\n", *sent]).encode(), pair.phase()


FLOW = [b"toback\t99999", *[b"step"] * 5, b"toclient\t99999"]
EVENTS = (b"step", b"step", b"toback\t7", b"toback\t99999", b"toclient\t5", b"toclient\t99999", b"chunk\tx", b"done", b"fail\tno", b"query\tq", b"start",
          b"terminate", b"breakback", b"breakclient")


def scattered(chance, lines):
    """The lines of a file of calls, with other events between them. A flow becomes events, and no file is read."""
    chosen, in_group, started = chance.choice((0, 0.05, 0.3)), False, False
    for line in lines:
        verb = line.split(b"\t")[0]
        if verb != b"file":
            yield from FLOW * 2 if verb == b"flow" else [line]
        started, in_group = started or verb == b"start", verb == b"group" or in_group and verb != b"sync"
        while started and not in_group and chance.random() < chosen:
            yield chance.choice(EVENTS[:-4] if chance.random() < 0.9 else EVENTS)


def make_pair(chance):
    """A line of what happens to a pair, what is written, and how it ends."""
    script, calls, *found = played(chance, lambda data: b"".join(line + b"\n" for line in scattered(chance, data.splitlines())))
    return f"pair {script.hex()} {calls.hex()}\n".encode(), *pair_written(*found)
