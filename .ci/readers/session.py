"""A client and a scripted backend whose bytes go to each other, and what `pgpipe loop` prints of them, as docs/PROTOCOL.md and docs/LOOP.md
tell it, without a look at the program. After each event of a run the theorem is looked at too: what is settled begins the log, with the
chunks that were handed over, and where the client is ready the backend is, with only messages of a copy on their way to it."""
import ends
import files
import rows
import stream

PIECE = 4096


# ---- lines

def number(value):
    return str(value).encode()


def flat(fields):
    return [part for code, value in fields for part in (bytes([code]), value)]


def aside_line(aside):
    if aside[0] == "notice":
        return [b"notice", *flat(aside[1])]
    if aside[0] == "set":
        return [b"set", *aside[1:]]
    return [b"notify", number(aside[1]), *aside[2:]]


def part_lines(part):
    kind, rest = part[0], part[1:]
    if kind == "rows":
        return [[b"rows", rest[0], *rest[1]], *([b"row", *row] for row in rest[2])]
    if kind == "copyout":
        head = [b"copyout", rest[0], b"binary" if rest[1] else b"text", number(rest[2])]
        return [head, *([b"chunk", chunk] for chunk in rest[3])]
    if kind == "copyin":
        return [[b"copyin", b"binary" if rest[0] else b"text", number(rest[1]), b"accept", rest[3]]]
    if kind == "described":
        types = [] if rest[0] is None else [[b"paramtypes", *map(number, rest[0])]]
        return [*types, [b"described", *(rest[1] or [])]]
    if kind == "executed":
        tag = [rest[1]] if rest[0] == "complete" else []
        return [[b"executed", rest[0].encode(), *tag], *([b"row", *row] for row in rest[2])]
    return [[kind.encode(), *rest]]


def request_line(request):
    if request is None:
        return [b"none"]
    return [request[0].encode(), request[1] if request[0] == "query" else number(len(request[1]))]


def settled_lines(request, outcome):
    asides, parts, error, status = outcome
    lines = [[b"settled", *request_line(request)]]
    lines += [aside_line(aside) for aside in asides]
    lines += [line for part in parts for line in part_lines(part)]
    lines += [] if error is None else [[b"error", *flat(error)]]
    return [*lines, [b"status", status.encode()]]


# ---- both ends

class Pair:
    def __init__(self, calls, script):
        self.client, self.backend = ends.Client(calls), ends.Backend(script)
        self.to_backend, self.to_client = b"", b""
        self.client_cut, self.backend_cut = False, False
        self.lines, self.told = [], 0
        self.handed = []  # the chunks of each request

    def call(self, sent):
        """Whether the call was accepted."""
        if isinstance(sent, str):
            self.lines.append([b"refused", sent.encode()])
            return False
        self.to_backend += sent
        return True

    def step(self):
        """Whether a message was handled."""
        sent = self.backend.step()
        if sent is None:
            return False
        self.to_client += sent
        return True

    def deliver_back(self, count):
        if self.backend.phase == "closed" or self.backend_cut:
            return False
        piece, self.to_backend = self.to_backend[:count], self.to_backend[count:]
        self.backend.data += piece
        return bool(piece)

    def deliver_client(self, count):
        moved = False
        while count and self.to_client and self.client.phase != "closed" and not self.client_cut:
            size = min(count, PIECE)
            piece, self.to_client = self.to_client[:size], self.to_client[size:]
            count -= len(piece)
            moved = True
            try:
                self.to_backend += self.client.feed(piece)
            except ends.Fault as fault:
                self.client.phase = "closed"
                self.tell()
                code, *fields = fault.args
                self.lines.append([b"fault", code.encode(), *(part for found in fields for part in flat(found))])
                return True
        self.tell()
        return moved

    def tell(self):
        """The lines of what was settled since."""
        for request, outcome in self.client.settled[self.told:]:
            self.lines += settled_lines(request, outcome)
        self.told = len(self.client.settled)

    def break_client(self):
        if self.client.phase == "closed" or self.client_cut:
            return
        self.client_cut = True
        request, error = self.client.lost()
        self.lines.append([b"lost", b"error" if error else b"clear", *request_line(request)])

    def break_back(self):
        if self.backend.phase != "closed":
            self.backend_cut, self.backend.phase = True, "closed"

    def flow(self, cut):
        for _ in range(2):
            while self.deliver_back(cut):
                pass
            while self.step():
                pass
            while self.deliver_client(cut):
                pass

    def event(self, verb, argument, cut):
        if verb in ("query", "group"):
            self.handed += [[]] * self.call(self.client.ask([verb, argument]))
        elif verb in ("chunk", "done", "fail"):
            accepted = self.call(self.client.copy({"chunk": b"d", "done": b"c", "fail": b"f"}[verb], argument or b""))
            if accepted and verb == "chunk":
                self.handed[-1] = [*self.handed[-1], argument]
        elif verb in ("start", "terminate"):
            self.call(getattr(self.client, verb)())
        elif verb == "flow":
            self.flow(cut)
        else:
            do = {"toback": self.deliver_back, "toclient": self.deliver_client, "breakback": self.break_back, "breakclient": self.break_client}
            do.get(verb, self.step)(*([] if argument is None else [argument]))
        self.look()

    def look(self):
        """The theorem."""
        assert len(self.client.settled) <= len(self.backend.log), "more is settled than was answered"
        for settled, (request, outcome, loaded), handed in zip(self.client.settled, self.backend.log, self.handed):
            assert settled == (request, outcome), "what is settled doesn't begin the log"
            whole = any(part[0] == "copyin" for part in outcome[1])
            assert loaded == handed if whole else loaded == handed[:len(loaded)], "other chunks are loaded than were handed over"
        if self.client.phase == "ready" and not self.backend_cut:
            assert self.backend.phase == "ready", "the client is ready and the backend isn't"
            assert self.only_copies(self.backend.data + self.to_backend), "more than messages of a copy is on its way to the backend"

    def only_copies(self, data):
        at = 0
        while found := stream.next_message(stream.FRONT, data, at):
            if found[0] not in b"dcf":
                return False
            at = found[3]
        return at == len(data)

    def end(self):
        for place, (_, _, chunks) in enumerate(self.backend.log, 1):
            if chunks:
                self.lines.append([b"loaded", number(place), *chunks])
        self.lines += [[b"client", self.client.phase.encode()], [b"backend", self.backend.phase.encode()]]


def loop(script, calls, disk, cut=PIECE):
    """What is printed, what is said on standard error, and the status; `disk` has the bytes of a path, or None."""
    name = "SCRIPT"
    try:
        script = files.Script(script)
        name = "CALLS"
        calls = files.Calls(calls)
    except files.Refused as refused:
        return b"", f"pgpipe: {name} line {refused}\n".encode(), 2
    events = []
    for verb, *rest in calls.events:
        if verb != "file":
            events.append((verb, rest[0] if rest else None))
            continue
        data = disk(rest[0])
        if data is None:
            return b"", b"pgpipe: device\n", 3
        events += [("chunk", data[at:at + PIECE]) for at in range(0, len(data), PIECE)]
    if fault := script.fault():
        return b"", f"pgpipe: {fault}\n".encode(), 2
    pair = Pair(calls, script)
    for verb, argument in events:
        pair.event(verb, argument, cut)
    pair.end()
    return b"".join(rows.text_line(line) for line in pair.lines), b"", 0
