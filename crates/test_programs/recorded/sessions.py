#!/usr/bin/env python3
"""Records sessions with a server of Debian's postgresql-15: of psql, of pgbench (extended queries, prepared ones, and pipelines),
and of the little client of `little.py`; last come the sessions in which the server asks for a password. `sessions.py` writes what went
over the wire to `data/sessions`, and to its part of `stdout` what psql printed, and of the other sessions what the server answered, in
words. `sessions.py passwords` leaves them as they are, and puts new sessions with passwords behind. It needs to run as root, with the
package installed."""

import os, pwd, re, shutil, socket, subprocess, sys, tempfile, threading

sys.dont_write_bytecode = True
import little
from said import Answer, act

CRATE = os.path.dirname(os.path.dirname(os.path.abspath(__file__)))
HEAD = b"== sessions\n"  # of their part of the output
BIN = "/usr/lib/postgresql/15/bin/"
PORT, PROXY = 54329, 54330

PSQL = r"""
SELECT 1 AS n, NULL AS nothing, '' AS empty, 'a|b' AS text;
CREATE TABLE t (n integer, s text);
INSERT INTO t SELECT i, repeat('x', i) FROM generate_series(1, 12) AS i;
SELECT * FROM t WHERE n < 4 ORDER BY n;
SELECT FROM t WHERE n = 1;
SELECT 1/0;
SELECT * FROM nowhere;
/* nothing */;
DO $$ BEGIN RAISE NOTICE 'first'; RAISE NOTICE 'second'; END $$;
DROP TABLE IF EXISTS nowhere;
SET application_name = 'recorded';
SHOW application_name;
SET TimeZone = 'UTC';
SHOW TimeZone;
SELECT 2\; SELECT 3\; UPDATE t SET s = 'y' WHERE n = 1;
SELECT 4\; SELECT 1/0\; SELECT 5;
BEGIN;
SELECT 6;
SELECT 1/0;
SELECT 7;
ROLLBACK;
LISTEN news;
NOTIFY news, 'of the day';
COPY (SELECT n, s FROM t WHERE n < 3 ORDER BY n) TO STDOUT;
COPY t FROM STDIN;
20	a
21	\N
\.
COPY t FROM STDIN;
bad line
\.
SELECT count(*), sum(n), max(length(s)) FROM t;
SELECT repeat('long ', 200);
"""

# pgbench's ways of a query, and its scripts. A script that fails ends its session.
BENCHES = [
    ("extended", 3, r"""
\set n 7
SELECT :n AS n, NULL AS nothing, '' AS empty;
UPDATE t SET s = 'z' WHERE n = :n;
"""),
    ("prepared", 3, r"""
\set n 8
SELECT s FROM t WHERE n = :n;
\startpipeline
BEGIN;
SELECT n FROM t WHERE n < :n ORDER BY n;
UPDATE t SET s = 'w' WHERE n = :n;
COMMIT;
\endpipeline
"""),
    ("extended", 1, r"""
\set n 3
\startpipeline
SELECT :n AS n;
SELECT 6 / (i - :n) AS q FROM generate_series(1, 5) AS i;
SELECT 2;
\endpipeline
"""),
]

# how each user is asked for a password: in cleartext, by MD5, and by SCRAM, which is the server's default
HBA = """
local all all trust
host all clear 127.0.0.1/32 password
host all hashed 127.0.0.1/32 md5
host all salted 127.0.0.1/32 scram-sha-256
host all all 127.0.0.1/32 trust
"""
# an md5 line asks by MD5 only for a role whose password was set under this encryption
PASSWORDS = {"clear": "open sesame", "hashed": "\u00f6ffne dich"}
ROLES = f"""
CREATE ROLE salted LOGIN PASSWORD 'never asked for';
CREATE ROLE clear LOGIN PASSWORD '{PASSWORDS["clear"]}';
SET password_encryption = md5;
CREATE ROLE hashed LOGIN PASSWORD '{PASSWORDS["hashed"]}';
"""
ADMITTED = """
SELECT current_user;
SELECT 1/0;
SHOW is_superuser;
"""


def whole(data, first):
    """Splits what is whole off the front of an end's bytes: (messages, rest). The first packet has no tag."""
    messages = []
    while True:
        head = 0 if first else 1
        if len(data) < head + 4:
            return messages, data, first
        size = head + int.from_bytes(data[head:head + 4], "big")
        if len(data) < size:
            return messages, data, first
        messages.append((data[:size], b"" if first else data[:1], data[head + 4:size]))
        data, first = data[size:], False


def pieces(end):
    """What an end sends, until it closes the connection or, as a run of pgbench that fails, drops it."""
    try:
        while piece := end.recv(65536):
            yield piece
    except ConnectionResetError:
        pass


class Session:
    """One connection over the proxy: what went over it, in order."""

    def __init__(self, name, password, client):
        self.name, self.password, self.client, self.lock = name, password, client, threading.Lock()
        self.server = socket.create_connection(("127.0.0.1", PORT))
        self.lines, self.answer, self.printed, self.fault = [], Answer(), None, None
        self.threads = [threading.Thread(target=self.guarded, args=(half,)) for half in (self.from_client, self.from_server)]
        for thread in self.threads:
            thread.start()

    def guarded(self, half):
        try:
            half()
        except BaseException as fault:
            self.fault = fault
            self.client.close()
            self.server.close()

    def from_client(self):
        data, first = b"", True
        for piece in pieces(self.client):
            messages, data, first = whole(data + piece, first)
            with self.lock:
                for spelled, tag, body in messages:
                    self.lines += self.acts(tag, body) + ["sent " + spelled.hex()]
                    self.answer.ask(tag.decode())
            self.server.sendall(piece)
        self.server.shutdown(socket.SHUT_WR)

    def acts(self, tag, body):
        """Behind the start stands the password that the client has. The answer to a question for it is no act."""
        if tag == b"p":
            return []
        return [act(tag, body)] + ([f"password {self.password}"] if self.password and not tag else [])

    def from_server(self):
        data = b""
        for piece in pieces(self.server):
            messages, data, _ = whole(data + piece, False)
            with self.lock:
                self.lines.append("bytes " + piece.hex())
                for _, tag, body in messages:
                    self.answer.hear(tag.decode(), body)
            self.client.sendall(piece)

    def join(self):
        for thread in self.threads:
            thread.join()
        self.client.close()
        self.server.close()
        if self.fault:
            raise self.fault

    def joined(self):
        """What was noted. What came from one end without a break is one line; a group's bytes stand behind its sync."""
        out, sent = [], ""
        for said in self.lines:
            kind, _, rest = said.partition(" ")
            if kind == "sent":
                sent += rest
                continue
            if kind == "bytes":
                if sent:
                    out.append("sent " + sent)
                    sent = ""
                if out[-1].startswith("bytes "):
                    out[-1] += rest
                    continue
            out.append(said)
        return out + (["sent " + sent] if sent else [])


class Proxy:
    """Hands connections on to the server, and records them under the name that is set, with the client's password."""

    def __init__(self):
        self.name, self.password, self.sessions = "", None, []
        self.listener = socket.create_server(("127.0.0.1", PROXY))
        threading.Thread(target=self.accept, daemon=True).start()

    def accept(self):
        while True:
            client, _ = self.listener.accept()
            self.sessions.append(Session(self.name, self.password, client))


def address(user):
    return f"host=127.0.0.1 port={PROXY} user={user} dbname=postgres sslmode=disable gssencmode=disable"


def record_psql(proxy, user, script, password=None):
    proxy.name, proxy.password = "psql", password
    psql = subprocess.run([BIN + "psql", "-X", "-A", "-v", "VERBOSITY=terse", "-d", address(user)],
                          env=dict(os.environ, PGPASSWORD=password or ""),
                          input=script.encode(), stdout=subprocess.PIPE, stderr=subprocess.STDOUT)
    proxy.sessions[-1].printed = psql.stdout


def record_passwords(proxy, folder):
    for user, password in PASSWORDS.items():
        record_psql(proxy, user, ADMITTED, password)
    # a wrong password, and a server's default
    proxy.name = "talk"
    for user, proxy.password in ("hashed", "wrong"), ("salted", "not asked for"):
        little.be_refused(PROXY, user, proxy.password)


def record_others(proxy, folder):
    record_psql(proxy, "postgres", PSQL)
    proxy.name = "pgbench"
    for way, times, script in BENCHES:
        file = folder + "/script"
        with open(file, "w") as out:
            out.write(script)
        subprocess.run([BIN + "pgbench", "-M", way, "-t", str(times), "-n", "-f", file, address("postgres")],
                       stdout=subprocess.DEVNULL)
    proxy.name = "talk"
    little.talk(PROXY)


def record(folder, parts):
    proxy = Proxy()
    for part in parts:
        part(proxy, folder)
    for session in proxy.sessions:
        session.join()
    # pgbench's first connection asks for nothing
    return [session for session in proxy.sessions if session.answer.words]


def printed(session):
    said = session.printed or "".join(text + "\n" for text in session.answer.words).encode("latin-1")
    return f"session {session.name}\n".encode() + said


def put(said, adds):
    """Puts what is to be printed of the sessions behind their part of the stored output, or in its place. A part begins with a line `== NAME`."""
    with open(CRATE + "/stdout", "rb") as file:
        parts = re.split(rb"(?m)^(?=== )", file.read())
    parts = [(part if adds else HEAD) + said if part.startswith(HEAD) else part for part in parts]
    with open(CRATE + "/stdout", "wb") as file:
        file.write(b"".join(parts))


def main():
    adds = sys.argv[1:] == ["passwords"]
    folder = tempfile.mkdtemp(prefix="recorded-")
    user = pwd.getpwnam("postgres")
    os.chown(folder, user.pw_uid, user.pw_gid)
    run = lambda *words: subprocess.run(["runuser", "-u", "postgres", "--", *words], check=True, stdout=subprocess.DEVNULL)
    data = folder + "/data"
    run(BIN + "initdb", "-D", data, "-A", "trust", "-U", "postgres", "--locale=C", "-E", "UTF8", "--no-sync")
    with open(data + "/pg_hba.conf", "w") as file:
        file.write(HBA)
    run(BIN + "pg_ctl", "-D", data, "-w", "-o", f"-p {PORT} -k {folder} -c listen_addresses=127.0.0.1 -c fsync=off", "start")
    try:
        subprocess.run([BIN + "psql", "-X", "-q", "-h", folder, "-p", str(PORT), "-U", "postgres"], input=ROLES.encode(), check=True)
        sessions = record(folder, [record_passwords] if adds else [record_others, record_passwords])
    finally:
        run(BIN + "pg_ctl", "-D", data, "-m", "immediate", "stop")
        shutil.rmtree(folder)
    with open(CRATE + "/data/sessions", "a" if adds else "w") as file:
        for session in sessions:
            file.write("\n".join(["session " + session.name] + session.joined()) + "\n")
    put(b"".join(map(printed, sessions)), adds)


if __name__ == "__main__":
    main()
