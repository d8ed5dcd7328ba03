"""A client and a scripted backend, each by itself: what it sends for a call or a message, and what it settles or logs, as docs/PROTOCOL.md
tells it, without a look at the program."""
import hashlib
import struct

import files
import stream


def message(tag, body=b""):
    return tag + struct.pack(">i", len(body) + 4) + body


def text(value):
    return value + b"\0"


def many(form, values):
    return struct.pack(">H", len(values)) + b"".join(struct.pack(form, value) for value in values)


def values_of(values):
    found = [struct.pack(">i", -1) if value is None else struct.pack(">i", len(value)) + value for value in values]
    return struct.pack(">H", len(values)) + b"".join(found)


def fields_body(fields):
    return b"".join(bytes([code]) + text(value) for code, value in fields) + b"\0"


def has_zero(texts):
    return any(b"\0" in part for part in texts)


def own_error(severity, code, words):
    return [(ord("S"), severity), (ord("V"), severity), (ord("C"), code), (ord("M"), words)]


def md5_answer(user, password, salt):
    inner = hashlib.md5(password + user).hexdigest().encode()
    return b"md5" + hashlib.md5(inner + salt).hexdigest().encode()


# ---- the backend

def row_description(names):
    return message(b"T", struct.pack(">H", len(names)) + b"".join(text(name) + struct.pack(">ihihih", 0, 0, 25, -1, -1, 0) for name in names))


def copy_body(binary, count):
    return bytes([binary]) + many(">h", [int(binary)] * count)


def aside_bytes(aside):
    if aside[0] == "notice":
        return message(b"N", fields_body(aside[1]))
    if aside[0] == "set":
        return message(b"S", text(aside[1]) + text(aside[2]))
    return message(b"A", struct.pack(">i", aside[1]) + text(aside[2]) + text(aside[3]))


def part_bytes(part):
    """What the backend sends for a part; of a copy from the client, what it sends before the copy."""
    kind = part[0]
    if kind == "rows":
        return row_description(part[2]) + b"".join(message(b"D", values_of(row)) for row in part[3]) + message(b"C", text(part[1]))
    if kind == "command":
        return message(b"C", text(part[1]))
    if kind == "copyout":
        data = b"".join(message(b"d", chunk) for chunk in part[4])
        return message(b"H", copy_body(part[2], part[3])) + data + message(b"c") + message(b"C", text(part[1]))
    if kind == "copyin":
        return message(b"G", copy_body(part[1], part[2]))
    if kind == "described":
        types = b"" if part[1] is None else message(b"t", many(">I", part[1]))
        return types + (message(b"n") if part[2] is None else row_description(part[2]))
    if kind == "executed":
        end = {"complete": lambda: message(b"C", text(part[2])), "empty": lambda: message(b"I"), "suspended": lambda: message(b"s")}
        return b"".join(message(b"D", values_of(row)) for row in part[3]) + end[part[1]]()
    return message({"empty": b"I", "parsed": b"1", "bound": b"2", "shut": b"3"}[kind])


def answers_step(step, part):
    if step[0] == "describe":
        return part[0] == "described" and (part[1] is not None) == (step[1] == "S")
    return part[0] == {"parse": "parsed", "bind": "bound", "execute": "executed", "close": "shut"}[step[0]]


def fits(answer, request):
    if request[0] == "query":
        return all(part[0] in ("rows", "command", "empty", "copyout", "copyin") for part in answer.parts)
    steps = request[1]
    whole = len(answer.parts) == len(steps) or (answer.error is not None and len(answer.parts) <= len(steps))
    return whole and all(answers_step(step, part) for step, part in zip(steps, answer.parts))


class Backend:
    def __init__(self, script):
        self.script, self.phase, self.data, self.asked, self.steps = script, "first", b"", 0, []
        self.log = []  # requests, outcomes, chunks
        self.fault = None  # K1 or K4, as the words of a line

    def step(self):
        """What a step sends, or None where nothing is whole."""
        if self.phase == "closed":
            return None
        try:
            found = stream.next_packet(self.data, 0) if self.phase == "first" else stream.next_message(stream.FRONT, self.data, 0)
        except stream.Fault as fault:
            self.fault = f"K1 Wire {fault}"
            return self.close((b"08P01", b"bad message"))
        if found is None:
            return None
        kind, _, held, end = found
        self.data = self.data[end:]
        return getattr(self, f"in_{self.phase}")(kind, held)

    def close(self, severity_code_words=None):
        self.phase = "closed"
        return message(b"E", fields_body(own_error(b"FATAL", *severity_code_words))) if severity_code_words else b""

    def unexpected(self, tag):
        self.fault = f"K4 Unexpected {tag[0]}"
        return self.close((b"08P01", b"unexpected message"))

    def in_first(self, kind, held):
        if kind != "startup":
            return self.close() if kind == "cancel" else b"N"
        users = [value for name, value in held if name == b"user"]
        if not users or not users[-1]:
            return self.close((b"28000", b"no user in startup"))
        way, *rest = self.script.auth
        if way == "trust":
            return self.welcome()
        self.phase = "password"
        if way == "cleartext":
            self.awaited = rest[0]
            return message(b"R", struct.pack(">i", 3))
        self.awaited = md5_answer(users[-1], *rest)
        return message(b"R", struct.pack(">i", 5) + rest[1])

    def welcome(self):
        self.phase = "ready"
        key = message(b"K", struct.pack(">ii", *self.script.key)) if self.script.key else b""
        pairs = b"".join(message(b"S", text(name) + text(value)) for name, value in self.script.pairs)
        return message(b"R", struct.pack(">i", 0)) + pairs + key + message(b"Z", b"I")

    def in_password(self, tag, held):
        if tag == b"X":
            return self.close()
        if tag != b"p":
            return self.unexpected(tag)
        return self.welcome() if held == self.awaited else self.close((b"28P01", b"password authentication failed"))

    def in_ready(self, tag, held):
        if tag == b"X":
            return self.close()
        if tag in b"Hdcf":
            return b""
        if tag == b"Q" and self.phase == "ready":
            return self.answer(["query", held])
        if tag == b"S":
            steps, self.steps, self.phase = self.steps, [], "ready"
            return self.answer(["group", steps])
        step = {
            b"P": lambda: ["parse", held[0], held[1], held[2]],
            b"B": lambda: ["bind", held[0], held[1], held[3], held[2], held[4]],
            b"D": lambda: ["describe", held[0].decode(), held[1]],
            b"C": lambda: ["close", held[0].decode(), held[1]],
            b"E": lambda: ["execute", held[0], held[1]],
        }.get(tag)
        if step is None:
            return self.unexpected(tag)
        self.steps.append(step())
        self.phase = "grouping"
        return b""

    in_grouping = in_ready

    def answer(self, request):
        answers = self.script.answers
        answer = answers[self.asked] if self.asked < len(answers) else None
        self.asked += 1
        if answer is None or not fits(answer, request):
            answer = files.Answer("I")
            answer.error = own_error(b"ERROR", b"XX000", b"script has no fitting answer")
        self.request, self.current, self.done, self.chunks = request, answer, [], []
        return b"".join(aside_bytes(aside) for aside in answer.before) + self.go_on(0)

    def go_on(self, at):
        """The parts from here on, up to a copy from the client or the end of the answer."""
        sent = b""
        for place, part in enumerate(self.current.parts[at:], at):
            sent += part_bytes(part)
            if part[0] == "copyin":
                self.phase, self.place = "copying", place
                return sent + (self.end(part[5]) if part[3] == "refuse" and part[4] == 0 else b"")
            self.done.append(part)
        return sent + self.end(self.current.error)

    def end(self, error):
        self.phase = "ready"
        answer = self.current
        self.log.append((self.request, (answer.before, self.done, error, answer.status), self.chunks))
        return (b"" if error is None else message(b"E", fields_body(error))) + message(b"Z", answer.status.encode())

    def in_copying(self, tag, held):
        part = self.current.parts[self.place]
        if tag in b"HS":
            return b""
        if tag == b"X":
            return self.close()
        if tag == b"d":
            self.chunks.append(held)
            return self.end(part[5]) if part[3] == "refuse" and len(self.chunks) == part[4] else b""
        if tag == b"f":
            return self.end(own_error(b"ERROR", b"57014", b"COPY failed: " + held[:200]))
        if tag != b"c":
            return self.end(own_error(b"ERROR", b"08P01", b"unexpected message in COPY"))
        if part[3] == "refuse":
            return self.end(part[5])
        self.done.append([*part[:3], "accept", part[4]])
        return message(b"C", text(part[4])) + self.go_on(self.place + 1)


# ---- the client

class Fault(Exception):
    """Why a client is closed: F1 to F6, as the fields of a line."""


class Client:
    def __init__(self, calls):
        self.calls, self.phase, self.data = calls, "new", b""
        self.request, self.settled = None, []
        self.begin()

    def begin(self):
        """A segment begins."""
        self.asides, self.parts, self.error, self.open, self.asked, self.let_in = [], [], None, None, False, False

    # calls: the bytes to send, or the code of a refusal

    def start(self):
        calls = self.calls
        if self.phase != "new":
            return "C1"
        pairs = [(b"user", calls.user), *([] if calls.database is None else [(b"database", calls.database)]), *calls.options]
        body = struct.pack(">i", 196608) + b"".join(text(name) + text(value) for name, value in pairs) + b"\0"
        if has_zero(part for pair in pairs for part in pair) or not all(name for name, _ in pairs) or len(body) + 4 > 10_000:
            return "C3"
        if b"\0" in (calls.password or b""):
            return "C3"
        self.phase = "starting"
        return struct.pack(">i", len(body) + 4) + body

    def ask(self, request):
        if self.phase != "ready":
            return "C1"
        sent = message(b"Q", text(request[1])) if request[0] == "query" else self.group(request[1])
        if sent is None or (request[0] == "query" and b"\0" in request[1]):
            return "C3"
        self.phase, self.request = "busy", request
        return sent

    def group(self, steps):
        sent = b""
        for step in steps:
            if has_zero(part for part in step if isinstance(part, bytes)):
                return None
            if step[0] == "parse":
                sent += message(b"P", text(step[1]) + text(step[2]) + many(">I", step[3]))
            elif step[0] == "bind":
                sent += message(b"B", text(step[1]) + text(step[2]) + many(">h", step[4]) + values_of(step[3]) + many(">h", step[5]))
            elif step[0] == "execute":
                sent += message(b"E", text(step[1]) + struct.pack(">i", step[2]))
            else:
                sent += message({"describe": b"D", "close": b"C"}[step[0]], step[1].encode() + text(step[2]))
        return sent + message(b"S")

    def copy(self, tag, body):
        if self.phase != "copying":
            return "C2"
        if tag == b"f" and b"\0" in body:
            return "C3"
        self.phase = "copying" if tag == b"d" else "busy"
        if tag == b"c":
            self.open = [*self.open, True]
        return message(tag, text(body) if tag == b"f" else body)

    def terminate(self):
        if self.phase in ("new", "closed"):
            return "C1"
        self.phase = "closed"
        return message(b"X")

    def lost(self):
        self.phase = "closed"
        request, self.request = self.request, None
        return request, request is not None and self.error is not None

    # what comes

    def feed(self, piece):
        """What is sent for a piece."""
        self.data += piece
        sent = b""
        while found := stream.next_message(stream.BACK, self.data, 0):
            tag, _, held, end = found
            self.data = self.data[end:]
            sent += self.take(tag, held) or b""
        return sent

    def take(self, tag, held):
        if self.phase == "new":
            raise Fault("F2")
        if tag == b"N":
            self.asides.append(["notice", held])
        elif tag == b"S":
            self.asides.append(["set", *held])
        elif tag == b"A":
            self.asides.append(["notify", *held])
        elif self.phase == "starting":
            return self.take_startup(tag, held)
        elif self.request is None:
            raise Fault("F6", held) if tag == b"E" else Fault("F2")
        elif tag == b"E":
            self.phase = "busy"
            self.error = held if self.error is None else self.error
        elif tag == b"Z":
            self.settle(held)
        elif self.error is not None:
            raise Fault("F2")
        elif self.request[0] == "query":
            self.take_result(tag, held)
        else:
            self.take_answer(tag, held)
        return b""

    def take_startup(self, tag, held):
        if tag == b"E":
            raise Fault("F5", held)
        if tag == b"R" and held[0] == 0 and not self.let_in:
            self.let_in = True
        elif tag == b"R" and not self.asked and not self.let_in:
            self.asked = True
            if held[0] not in (3, 5):
                raise Fault("F3")
            if self.calls.password is None:
                raise Fault("F4")
            password = self.calls.password
            return message(b"p", text(password if held[0] == 3 else md5_answer(self.calls.user, password, held[1])))
        elif tag == b"Z" and self.let_in:
            self.phase = "ready"
            self.begin()
        elif tag != b"K" or not self.let_in:
            raise Fault("F2")
        return b""

    def take_result(self, tag, held):
        kind = self.open[0] if self.open else None
        if kind is None and tag == b"T":
            self.open = ["rows", held, []]
        elif kind == "rows" and tag == b"D":
            self.open[2].append(held)
        elif kind == "rows" and tag == b"C":
            self.part("rows", held, [column[0] for column in self.open[1]], self.open[2])
        elif kind is None and tag == b"C":
            self.part("command", held)
        elif kind is None and tag == b"I":
            self.part("empty")
        elif kind is None and tag == b"H":
            self.open = ["copyout", held, []]
        elif kind == "copyout" and tag == b"d":
            self.open[2].append(held)
        elif kind == "copyout" and tag == b"c":
            self.open[0] = "copied"
        elif kind == "copied" and tag == b"C":
            head = self.open[1]
            self.part("copyout", held, head[0], len(head[1]), self.open[2])
        elif kind is None and tag == b"G":
            self.open, self.phase = ["copyin", held], "copying"
        elif kind == "copyin" and tag == b"C" and len(self.open) == 3:
            head = self.open[1]
            self.part("copyin", head[0], len(head[1]), "accept", held)
        else:
            raise Fault("F2")

    def take_answer(self, tag, held):
        steps = self.request[1]
        if len(self.parts) == len(steps):
            raise Fault("F2")
        step = steps[len(self.parts)]
        alone = {"parse": (b"1", "parsed"), "bind": (b"2", "bound"), "close": (b"3", "shut")}.get(step[0])
        if alone:
            if tag != alone[0]:
                raise Fault("F2")
            self.part(alone[1])
        elif step[0] == "describe":
            if step[1] == "S" and self.open is None:
                if tag != b"t":
                    raise Fault("F2")
                self.open = ["types", held]
            elif tag in (b"T", b"n"):
                self.part("described", self.open and self.open[1], [column[0] for column in held] if tag == b"T" else None)
            else:
                raise Fault("F2")
        elif tag == b"D":
            self.open = self.open or ["executed", []]
            self.open[1].append(held)
        elif tag in (b"C", b"I", b"s"):
            way = {b"C": "complete", b"I": "empty", b"s": "suspended"}[tag]
            self.part("executed", way, held if tag == b"C" else None, self.open[1] if self.open else [])
        else:
            raise Fault("F2")

    def part(self, *part):
        self.parts.append(list(part))
        self.open = None

    def settle(self, status):
        left = self.request[0] == "group" and len(self.parts) < len(self.request[1])
        if self.error is None and (self.open is not None or left):
            raise Fault("F2")
        self.settled.append((self.request, (self.asides, self.parts, self.error, status.decode())))
        self.request, self.phase = None, "ready"
        self.begin()
