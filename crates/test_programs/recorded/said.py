"""What a client said, as the acts of `data/sessions`, and what a server said, in the words of `stdout`."""

import struct


class Reader:
    """Reads the fields of a body."""

    def __init__(self, body):
        self.body = body

    def take(self, size):
        assert size <= len(self.body)
        taken, self.body = self.body[:size], self.body[size:]
        return taken

    def bytes(self):
        taken = self.take(self.body.index(b"\0"))
        self.take(1)
        return taken

    def text(self):
        return self.bytes().decode()

    def number(self, form):
        return struct.unpack("!" + form, self.take(struct.calcsize("!" + form)))[0]

    def numbers(self, form):
        return [self.number(form) for _ in range(self.number("H"))]

    def value(self):
        size = self.number("i")
        return None if size < 0 else self.take(size)

    def values(self):
        return [self.value() for _ in range(self.number("H"))]

    def fields(self):
        fields = {}
        while code := self.take(1).strip(b"\0").decode():
            fields[code] = self.text()
        return fields

    def end(self):
        assert not self.body, self.body


def joined(values):
    return ",".join(str(value) for value in values)


def word(text):
    assert " " not in text and "\n" not in text, text
    return text


def line(text):
    return text.replace("\n", " ")


def startup(body):
    body.number("I")
    texts = []
    while text := body.text():
        texts.append(word(text) + "=" + word(body.text()))
    return " ".join(["start"] + texts)


def parsed(body):
    name, text = body.text(), body.text()
    return f"parse {word(name)} {joined(body.numbers('I'))} {line(text)}"


def bound(body):
    names = [word(body.text()), word(body.text())]
    formats = joined(body.numbers("h"))
    values = joined("null" if value is None else "=" + value.hex() for value in body.values())
    return " ".join(["bind", *names, formats, values, joined(body.numbers("h"))])


def executed(body):
    portal = word(body.text())
    return f"execute {body.number('i')} {portal}"


ACTS = {
    b"": startup,
    b"Q": lambda body: "query " + line(body.text()),
    b"P": parsed,
    b"B": bound,
    b"D": lambda body: f"describe {body.take(1).decode()} {body.text()}",
    b"E": executed,
    b"C": lambda body: f"close {body.take(1).decode()} {body.text()}",
    b"S": lambda body: "sync",
    b"d": lambda body: "chunk " + body.take(len(body.body)).hex(),
    b"c": lambda body: "done",
    b"f": lambda body: "fail " + line(body.text()),
    b"X": lambda body: "terminate",
}


def act(tag, body):
    """The act of a message. A message that no act stands for stops the recording."""
    reader = Reader(body)
    said = ACTS[tag](reader)
    reader.end()
    return said.rstrip(" ")


# ---- what a server said

def shown(values):
    return "|".join("null" if value is None else "=" + value.decode("latin-1") for value in values)


def columns(body):
    names = []
    for _ in range(body.number("H")):
        names.append(body.text())
        body.take(18)
    return "columns " + "|".join(names)


def copy_head(name, body):
    return f"{name} {body.number('b')} {joined(body.numbers('h'))}"


def fault(name, body):
    fields = body.fields()
    return f"{name} {fields['S']} {fields['C']} {fields['M']}"


def notification(body):
    return f"notification {body.number('i')} {body.text()} {body.text()}"


# how a message is shown, and whether an answer or a result ends with it
WORDS = {
    "1": (lambda body: "parsed", True),
    "2": (lambda body: "bound", True),
    "3": (lambda body: "closed", True),
    "t": (lambda body: "parameters " + joined(body.numbers("I")), False),
    "n": (lambda body: "no columns", True),
    "T": (columns, None),
    "D": (lambda body: "row " + shown(body.values()), False),
    "C": (lambda body: "complete " + body.text(), True),
    "I": (lambda body: "empty", True),
    "s": (lambda body: "suspended", True),
    "G": (lambda body: copy_head("copy in", body), False),
    "H": (lambda body: copy_head("copy out", body), False),
    "d": (lambda body: "data " + body.take(len(body.body)).hex(), False),
    "c": (lambda body: "copied", False),
}
ASIDES = {
    "N": lambda body: fault("notice", body),
    "S": lambda body: f"parameter {body.text()}={body.text()}",
    "A": notification,
}


class Answer:
    """The server's answers in words: of a request the whole results or answers, the first error, what was said beside it, and the
    transaction status. What an error cuts off is not shown, nor what comes before the first ReadyForQuery or behind a Terminate, but
    that the client is not let in."""

    def __init__(self):
        self.words, self.ready, self.asked, self.ended = [], False, "", False
        self.begin()

    def begin(self):
        self.whole, self.partial, self.error, self.asides = [], [], [], []

    def ask(self, tag):
        if tag in ("Q", "S"):
            self.asked = tag
        if tag == "X":
            self.ended = True
            if self.asked:
                self.words.append("unsettled" + (", with an error" if self.error else ""))

    def hear(self, tag, body):
        if self.ended:
            return
        reader = Reader(body)
        if not self.ready and tag in "RE":
            self.admit(tag, reader)
            return
        if tag in WORDS:
            show, ends = WORDS[tag]
            self.partial.append(show(reader))
            # the columns are the end of what a Describe asked for, and the beginning of a query's rows
            if self.asked == "S" if ends is None else ends:
                self.whole, self.partial = self.whole + self.partial, []
        elif tag in ASIDES:
            self.asides.append(ASIDES[tag](reader))
        elif tag == "E":
            self.error, self.partial = self.error or [fault("error", reader)], []
        elif tag == "Z":
            status = reader.take(1).decode()
            if self.ready:
                self.words += self.whole + self.error + self.asides + ["ready " + status]
            self.ready, self.asked = True, ""
            self.begin()
        else:
            assert tag == "K", tag
            return
        reader.end()

    def admit(self, tag, body):
        """An error at the start, or a way of authentication: let in, a password in cleartext or by MD5, or one that isn't known."""
        if tag == "E":
            self.words.append(fault("refused", body))
        elif (code := body.number("i")) not in (0, 3, 5):
            self.words.append(f"refused F3 UnsupportedAuth {code}")
        self.ended = bool(self.words)
