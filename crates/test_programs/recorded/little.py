"""A little client, for what neither psql nor pgbench asks for: extended queries step by step, and starts that are refused."""

import hashlib, socket, struct


def string(text):
    return text.encode() + b"\0"


def message(tag, body=b""):
    return tag + struct.pack("!I", 4 + len(body)) + body


def numbers(form, values):
    return struct.pack(f"!H{len(values)}{form}", len(values), *values)


def query(text):
    return message(b"Q", string(text))


def parse(name, text, *types):
    return message(b"P", string(name) + string(text) + numbers("I", types))


def bind(portal, statement, values=(), formats=(), results=()):
    spelled = b"".join(b"\xff\xff\xff\xff" if v is None else struct.pack("!I", len(v)) + v for v in values)
    return message(b"B", string(portal) + string(statement) + numbers("h", formats)
                   + struct.pack("!H", len(values)) + spelled + numbers("h", results))


def describe(target, name):
    return message(b"D", target + string(name))


def execute(portal, most=0):
    return message(b"E", string(portal) + struct.pack("!i", most))


def close(target, name):
    return message(b"C", target + string(name))


def run(text, *values):
    """The steps of a query with unnamed statement and portal."""
    return parse("", text) + bind("", "", values) + execute("")


SYNC = message(b"S")

# what the little client sends, each once the server has answered what came before
TALK = [
    # a statement and a portal with names, described and closed
    parse("s", "SELECT $1::integer AS n, $2::text AS s", 23) + describe(b"S", "s") + bind("p", "s", [b"5", None])
    + describe(b"P", "p") + execute("p") + close(b"P", "p") + close(b"S", "s") + SYNC,
    # binary values
    parse("", "SELECT $1 + 1 AS n", 23) + bind("", "", [b"abcc"], [1], [1]) + describe(b"P", "") + execute("") + SYNC,
    # a portal that is run in pieces
    run("BEGIN") + SYNC,
    parse("q", "SELECT i, NULL AS x FROM generate_series(1, 5) AS i") + bind("c", "q") + execute("c", 2) + execute("c", 2) + SYNC,
    execute("c") + execute("c") + close(b"P", "c") + SYNC,
    # a statement that fails within a transaction, and what is refused behind it
    run("SELECT 1") + parse("", "SELEC 1") + bind("", "") + execute("") + SYNC,
    run("SELECT 2") + SYNC,
    run("ROLLBACK") + SYNC,
    # commands without rows, the empty query, no steps at all
    parse("", "CREATE TABLE u (n integer UNIQUE DEFERRABLE INITIALLY DEFERRED)") + describe(b"S", "") + bind("", "") + execute("") + SYNC,
    parse("", "") + bind("", "") + describe(b"P", "") + execute("") + SYNC,
    SYNC,
    # an error behind rows, at a bind, at a close's place, and behind all answers
    run("SELECT 7") + run("SELECT 6 / (i - 3) AS q FROM generate_series(1, 5) AS i") + close(b"S", "q") + SYNC,
    parse("", "SELECT $1::integer") + bind("", "", [b"x"]) + execute("") + SYNC,
    describe(b"S", "nothing") + close(b"S", "q") + SYNC,
    run("INSERT INTO u VALUES (1), (1)") + SYNC,
    # what the server says beside the answers
    run("DO $$ BEGIN RAISE NOTICE 'aside'; END $$") + run("SET application_name = 'little'") + SYNC,
    # copies that are refused and done, in a simple query
    query("COPY u FROM STDIN"),
    message(b"d", b"4\n") + message(b"f", string("no more of it")),
    query("COPY u FROM STDIN; SELECT 8; COPY u TO STDOUT"),
    message(b"d", b"5\n") + message(b"d", b"") + message(b"d", b"6\n") + message(b"c"),
    message(b"X"),
]


def hear(connection):
    """The next message: its tag and its body."""
    head = connection.recv(5, socket.MSG_WAITALL)
    return head[:1], connection.recv(int.from_bytes(head[1:], "big") - 4, socket.MSG_WAITALL)


def start(port, user):
    """A connection on which the startup packet is sent."""
    connection = socket.create_connection(("127.0.0.1", port))
    parameters = b"".join(string(text) for text in ("user", user, "database", "postgres", "application_name", "talk"))
    connection.sendall(struct.pack("!I", 9 + len(parameters)) + struct.pack("!I", 196608) + parameters + b"\0")
    return connection


def talk(port):
    connection = start(port, "postgres")
    for turn in TALK:
        # the answer's end, or the question for a copy's data
        while hear(connection)[0] not in (b"Z", b"G"):
            pass
        connection.sendall(turn)
    connection.close()


def md5(data):
    return hashlib.md5(data).hexdigest().encode()


def be_refused(port, user, password):
    """Answers a question for a password. The server refuses that, or asks in a way that isn't known here: then the client goes."""
    connection = start(port, user)
    _, question = hear(connection)
    code, salt = int.from_bytes(question[:4], "big"), question[4:]
    if code == 5:
        connection.sendall(message(b"p", b"md5" + md5(md5(password.encode() + user.encode()) + salt) + b"\0"))
        assert hear(connection)[0] == b"E"
    connection.close()
