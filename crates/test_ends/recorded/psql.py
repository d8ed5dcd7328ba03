#!/usr/bin/env python3
"""Records what psql sends in one session, against answers that are written here.

Usage: psql.py OUT. It needs psql of Debian's postgresql-client-15. The answers are those of the script in
src/backend/psql.rt; what matters here is only that psql goes on.
"""
import os
import socket
import struct
import subprocess
import sys
import threading


def message(tag, body):
    return tag + struct.pack(">i", len(body) + 4) + body


def text(value):
    return value.encode() + b"\0"


READY = message(b"Z", b"I")
WELCOME = (message(b"R", struct.pack(">i", 0)) + message(b"S", text("server_version") + text("15.0"))
           + message(b"S", text("client_encoding") + text("UTF8")) + message(b"S", text("standard_conforming_strings") + text("on"))
           + message(b"K", struct.pack(">ii", 7, 8)) + READY)
COLUMN = struct.pack(">h", 1) + text("n") + struct.pack(">ihihih", 0, 0, 25, -1, -1, 0)
ROW = message(b"T", COLUMN) + message(b"D", struct.pack(">hi", 1, 1) + b"1") + message(b"C", text("SELECT 1"))
ANSWERS = [ROW + READY, message(b"G", struct.pack(">bhh", 0, 1, 0)), message(b"I", b"") + READY]
LOADED = message(b"C", text("COPY 2")) + READY


class Server:
    def __init__(self, listener):
        self.connection, _ = listener.accept()
        self.seen = b""
        self.kept = b""

    def take(self, count):
        while len(self.kept) < count:
            more = self.connection.recv(4096)
            if not more:
                return None
            self.seen += more
            self.kept += more
        taken, self.kept = self.kept[:count], self.kept[count:]
        return taken

    def packet(self):
        head = self.take(4)
        return self.take(struct.unpack(">i", head)[0] - 4)

    def message(self):
        head = self.take(5)
        if head is None:
            return None, None
        return head[:1], self.take(struct.unpack(">i", head[1:])[0] - 4)

    def run(self):
        while struct.unpack(">i", self.packet()[:4])[0] != 196608:
            self.connection.sendall(b"N")
        self.connection.sendall(WELCOME)
        answers = list(ANSWERS)
        while True:
            tag, _ = self.message()
            if tag is None or tag == b"X":
                return
            if tag == b"Q":
                self.connection.sendall(answers.pop(0))
            if tag == b"c":
                self.connection.sendall(LOADED)


def main(out):
    listener = socket.create_server(("127.0.0.1", 0))
    port = listener.getsockname()[1]
    servers = []

    def serve():
        server = Server(listener)
        servers.append(server)
        server.run()

    thread = threading.Thread(target=serve)
    thread.start()
    environment = dict(os.environ, PGSSLMODE="prefer", PGGSSENCMODE="disable", PGCLIENTENCODING="UTF8")
    commands = ["-c", "SELECT 1", "-c", "COPY t FROM STDIN", "-c", ";"]
    subprocess.run(["psql", "-X", "-h", "127.0.0.1", "-p", str(port), "-U", "u", "-d", "d"] + commands, input=b"a\nb\n", env=environment, check=True)
    thread.join()
    with open(out, "w") as file:
        hexadecimal = servers[0].seen.hex()
        for start in range(0, len(hexadecimal), 64):
            file.write(hexadecimal[start:start + 64] + "\n")


if __name__ == "__main__":
    main(sys.argv[1])
