"""What `pgpipe show --front-file F --back-file B` says of the two streams of a connection, as docs/PGPIPE.md tells it. Read from the page,
and from PostgreSQL's chapter on the protocol, without a look at the program. A frame's own text is read by decoded.py."""
import struct

import decoded
import stream

ANSWERS = {80877103: b"NS", 80877104: b"NG"}  # by the code of a request for encryption
LINES = {
    b"N": "<- N (no encryption)\n",
    b"S": "<- S (what follows is encrypted, and can't be read)\n",
    b"G": "<- G (what follows is encrypted, and can't be read)\n",
}


class Side:
    """The stream of the client (`front`) or of the server, and how it ended, once nothing more can be read of it."""

    def __init__(self, data, front):
        self.data, self.front, self.at = data, front, 0
        self.packets, self.canceled = front, False

    def frame(self):
        """The next frame, or None."""
        head, least, most = (0, 8, stream.GREATEST_PACKET) if self.packets else (1, 4, stream.GREATEST)
        if self.canceled or len(self.data) < self.at + head + 4:
            return None
        size = struct.unpack_from(">i", self.data, self.at + head)[0]
        if not least <= size <= most or len(self.data) < self.at + head + size:
            return None
        frame = decoded.Frame(self.data[self.at:self.at + head + size], self.packets, self.front)
        self.at += head + size
        if self.packets:
            self.canceled = frame.code == 80877102
            self.packets = frame.code >> 16 == 1234
        return frame

    def fault(self):
        """Why not all of it was read."""
        if self.canceled or self.at == len(self.data):
            return None
        head, least, most = (0, 8, stream.GREATEST_PACKET) if self.packets else (1, 4, stream.GREATEST)
        if len(self.data) >= self.at + head + 4:
            size = struct.unpack_from(">i", self.data, self.at + head)[0]
            if size < least:
                return f"W2 ShortLength {size}"
            if size > most:
                return f"W3 LongLength {size}"
        return f"rest {len(self.data) - self.at}"


class Conversation:
    """Who waits for whom. `owed` counts what was asked and has no ReadyForQuery yet."""

    def __init__(self):
        self.waits = False  # the client waits for the server
        self.owed = 0
        self.copy = False  # the client sends the data of a copy that a Query began
        self.by_query = False  # what was asked last was a Query
        self.filled = False  # the client ended a copy since it waited last

    def sent(self, frame):
        if frame.is_packet:
            self.__init__()
            self.waits, self.owed = True, 1
            return
        tag = frame.tag
        if self.copy:
            if tag in b"dHS":
                return
            self.copy = False
            if tag in b"cf":
                self.waits, self.filled = True, False
                return
        if tag in b"QSF":
            self.waits, self.owed, self.by_query = True, self.owed + 1, tag == b"Q"
            if tag == b"Q":
                self.filled = False
        elif tag == b"p":
            self.waits, self.owed, self.by_query, self.filled = True, 1, False, False
        elif tag in b"cf":
            self.filled = True

    def begin(self):
        """The server sends a message before any other was read of it."""
        if not self.owed:
            self.waits, self.owed = True, 1

    def got(self, frame):
        if not self.waits:
            return
        tag = frame.tag
        if tag == b"Z":
            self.owed -= 1
            if self.owed <= 0:
                self.__init__()
        elif tag == b"R":
            code = struct.unpack_from(">I", frame.data, 5)[0] if len(frame.data) >= 9 else 0
            if code not in (0, 12):
                self.__init__()
                self.owed = 1
        elif tag in b"GW":
            if self.filled:
                self.filled = False
            elif self.by_query:
                self.waits, self.copy, self.owed = False, True, 1
            else:
                owed = self.owed - 1
                self.__init__()
                self.owed = owed


def show(front_data, back_data):
    """What is printed, what is said on standard error, and the status."""
    front, back = Side(front_data, True), Side(back_data, False)
    lines, talk, request, spoken = [], Conversation(), None, False
    front_open = back_open = True
    while front_open or back_open:
        if request is not None and back_open:
            byte = back.data[back.at:back.at + 1]
            answers, request = ANSWERS[request], None
            if byte and byte in answers:
                back.at += 1
                lines.append(LINES[byte])
                if byte != b"N":
                    fault = None if front_open else front.fault()
                    return "".join(lines).encode(), f"pgpipe: {'front-file: ' + fault if fault else 'encrypted'}\n".encode(), 2
                continue
            talk.begin()
            spoken = True
            server = True
        else:
            server = back_open and (not front_open or talk.waits)
        if not server:
            frame = front.frame()
            if frame is None:
                front_open = False
                continue
            lines.append(f"-> {frame.words()}\n")
            if frame.is_packet and frame.code in ANSWERS and not spoken:
                request = frame.code
            else:
                spoken = True
                talk.sent(frame)
            continue
        frame = back.frame()
        if not spoken:
            spoken = True
            talk.begin()
        if frame is None:
            back_open = False
            continue
        lines.append(f"<- {frame.words()}\n")
        talk.got(frame)
    for name, fault in (("front-file", front.fault()), ("back-file", back.fault())):
        if fault:
            return "".join(lines).encode(), f"pgpipe: {name}: {fault}\n".encode(), 2
    return "".join(lines).encode(), b"", 0
