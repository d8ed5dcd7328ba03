"""SCRIPT and CALLS of `pgpipe loop`, read as docs/LOOP.md tells them, without a look at the program."""
import re

import rows


class Refused(Exception):
    """The number of the row that has no meaning in its place."""


class NoMeaning(Exception):
    """A line has none."""


def demand(condition):
    if not condition:
        raise NoMeaning


class Fields:
    """Takes the fields of a line after its verb off the front."""

    def __init__(self, row):
        self.row, self.at = row, 0

    def value(self):
        demand(self.at < len(self.row))
        self.at += 1
        return self.row[self.at - 1]

    def text(self):
        found = self.value()
        demand(found is not None)
        return found

    def number(self, least=0, most=4_294_967_295):
        text = self.text()
        demand(re.fullmatch(rb"-?[0-9]+", text) and (least < 0 or not text.startswith(b"-")))
        demand(least <= int(text) <= most)
        return int(text)

    def signed(self):
        return self.number(-2_147_483_648, 2_147_483_647)

    def word(self, *words):
        found = self.text()
        demand(found in words)
        return found.decode()

    def pairs(self):
        found = []
        while self.at < len(self.row):
            code = self.text()
            demand(len(code) == 1)
            found.append((code[0], self.text()))
        return found

    def texts(self):
        return self.all(self.text)

    def all(self, one):
        found = []
        while self.at < len(self.row):
            found.append(one())
        return found

    def head(self):
        return self.word(b"text", b"binary") == "binary", self.number(0, 65_535)

    def end(self):
        demand(self.at == len(self.row))


def lines(data, take, end):
    """Gives each line that isn't empty to `take`, and at the end asks `end` for a row that was left open."""
    number = 0
    found = rows.text_rows(data, None)
    while True:
        number += 1
        try:
            row = next(found)
            if row == [b""]:
                continue
            demand(row[0] is not None)
            fields = Fields(row[1:])
            take(number, row[0].decode("latin-1"), fields)
            fields.end()
        except StopIteration:
            break
        except (rows.Fault, NoMeaning):
            raise Refused(number) from None
    if open_row := end():
        raise Refused(open_row)


class Answer:
    def __init__(self, status):
        self.status, self.before, self.parts, self.error = status, [], [], None


class Script:
    """A part is a list: its kind, and what its line says; `rows`, `executed` and `copyout` have a list of rows or chunks last."""

    def __init__(self, data):
        self.auth, self.pairs, self.key, self.answers, self.types = None, [], None, [], None
        lines(data, self.line, lambda: self.types and self.types[0])
        self.auth = self.auth or ["trust"]

    def line(self, number, verb, fields):
        if self.types is not None:
            demand(verb == "described")
        if verb in ("auth", "pair", "key"):
            demand(not self.answers)
            self.own(verb, fields)
        elif verb == "answer":
            self.answers.append(Answer(fields.word(b"I", b"T", b"E")))
        else:
            demand(self.answers)
            self.in_answer(number, verb, fields, self.answers[-1])

    def own(self, verb, fields):
        if verb == "pair":
            self.pairs.append((fields.text(), fields.text()))
        elif verb == "key":
            demand(self.key is None)
            self.key = fields.signed(), fields.signed()
        else:
            way = fields.word(b"trust", b"cleartext", b"md5")
            demand(self.auth is None)
            self.auth = [way]
            if way != "trust":
                self.auth.append(fields.text())
            if way == "md5":
                salt = fields.text()
                demand(re.fullmatch(rb"[0-9a-fA-F]{8}", salt))
                self.auth.append(bytes.fromhex(salt.decode()))

    def in_answer(self, number, verb, fields, answer):
        last = answer.parts[-1] if answer.parts else [None]
        if verb == "notice":
            answer.before.append(["notice", fields.pairs()])
        elif verb == "set":
            answer.before.append(["set", fields.text(), fields.text()])
        elif verb == "notify":
            answer.before.append(["notify", fields.signed(), fields.text(), fields.text()])
        elif verb == "error":
            demand(answer.error is None)
            answer.error = fields.pairs()
        elif verb == "row":
            demand(last[0] in ("rows", "executed"))
            last[-1].append(fields.all(fields.value))
        elif verb == "chunk":
            demand(last[0] == "copyout")
            last[-1].append(fields.text())
        elif verb == "paramtypes":
            self.types = number, fields.all(fields.number)
        else:
            answer.parts.append([verb, *self.part(verb, fields)])

    def part(self, verb, fields):
        if verb == "rows":
            return fields.text(), fields.texts(), []
        if verb == "command":
            return (fields.text(),)
        if verb in ("empty", "parsed", "bound", "shut"):
            return ()
        if verb == "copyout":
            return fields.text(), *fields.head(), []
        if verb == "copyin":
            head, way = fields.head(), fields.word(b"accept", b"refuse")
            return *head, way, *((fields.text(),) if way == "accept" else (fields.number(), fields.pairs()))
        if verb == "described":
            types, self.types = self.types, None
            return types and types[1], fields.texts() or None
        demand(verb == "executed")
        way = fields.word(b"complete", b"empty", b"suspended")
        return way, fields.text() if way == "complete" else None, []

    def fault(self):
        """Why the script can't be played: S1 or S2, or None."""
        if any(sum(part[0] == "copyin" for part in answer.parts) > 1 for answer in self.answers):
            return "S1 Copies"
        texts = [text for pair in self.pairs for text in pair]
        fields = []
        for answer in self.answers:
            fields += answer.error or []
            for aside in answer.before:
                if aside[0] == "notice":
                    fields += aside[1]
                else:
                    texts += aside[-2:]
            for part in answer.parts:
                if part[0] == "rows":
                    texts += [part[1], *part[2]]
                elif part[0] in ("command", "copyout"):
                    texts.append(part[1])
                elif part[0] == "described":
                    texts += part[2] or []
                elif part[0] == "executed":
                    texts += [part[2]] if part[2] is not None else []
                elif part[0] == "copyin" and part[3] == "accept":
                    texts.append(part[4])
                elif part[0] == "copyin":
                    fields += part[5]
        if any(b"\0" in text for text in texts) or any(code == 0 or b"\0" in value for code, value in fields):
            return "S2 Encode"
        return None


SETTINGS = ("user", "database", "option", "password")
ALONE = ("start", "done", "terminate", "step", "breakback", "breakclient", "flow")


class Calls:
    """The settings, and the events as lists: a word of docs/LOOP.md and what its line says; a group has its steps."""

    def __init__(self, data):
        self.user, self.database, self.options, self.password = b"", None, [], None
        self.events, self.group, self.started = [], None, False
        lines(data, self.line, lambda: self.group and self.group[0])

    def line(self, number, verb, fields):
        if self.group is not None:
            self.in_group(verb, fields)
        elif verb in SETTINGS:
            demand(not self.started)
            self.setting(verb, fields)
        elif verb == "group":
            self.group = number, []
        elif verb in ALONE:
            self.started = self.started or verb == "start"
            self.events.append([verb])
        elif verb in ("query", "chunk", "fail"):
            self.events.append([verb, fields.text()])
        elif verb == "file":
            path = fields.text()
            try:
                self.events.append([verb, path.decode("utf-8")])
            except UnicodeDecodeError:
                raise NoMeaning from None
        else:
            demand(verb in ("toback", "toclient"))
            self.events.append([verb, fields.number()])

    def setting(self, verb, fields):
        if verb == "option":
            self.options.append((fields.text(), fields.text()))
        else:
            setattr(self, verb, fields.text())

    def in_group(self, verb, fields):
        steps = self.group[1]
        if verb == "sync":
            self.events.append(["group", steps])
            self.group = None
        elif verb == "parse":
            steps.append([verb, fields.text(), fields.text(), fields.all(fields.number)])
        elif verb == "bind":
            steps.append([verb, fields.text(), fields.text(), fields.all(fields.value), [], []])
        elif verb in ("describe", "close"):
            steps.append([verb, fields.word(b"S", b"P"), fields.text()])
        else:
            demand(verb == "execute")
            steps.append([verb, fields.text(), fields.signed()])
