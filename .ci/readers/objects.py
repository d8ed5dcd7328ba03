"""What `pgpipe show --json` prints of a frame, as docs/PGPIPE.md tells it. Read from the page, and from PostgreSQL's chapter on the protocol,
without a look at the program. Where frames end is told by decoded.py, what their bodies hold by stream.py, and the text of an object is what
Python's json writes."""
import json

import decoded

HIDDEN = {"hidden": True}
STATUS = {b"I": "idle", b"T": "in a transaction", b"E": "in a failed transaction"}
REQUESTS = {80877102: "CancelRequest", 80877103: "SSLRequest", 80877104: "GSSENCRequest"}


def text(data):
    try:
        return data.decode()
    except UnicodeDecodeError:
        return {"hex": data.hex()}


def texts(values):
    return [None if data is None else text(data) for data in values]


def key(found):
    return {"process": found[0], "key": HIDDEN}


def column(found):
    name, table, attribute, oid, size, modifier, code = found
    return {"name": text(name), "table": table, "attribute": attribute, "type": oid, "type_name": decoded.TYPES.get(oid), "size": size,
            "modifier": modifier, "format": code}


def error(found):
    first = {}
    for code, value in found:
        first.setdefault(chr(code), text(value))
    return {"severity": first.get("V", first.get("S")), "code": first.get("C"), "message": first.get("M"),
            "fields": [{"code": text(bytes([code])), "value": text(value)} for code, value in found]}


def copy(found):
    return {"binary": found[0], "formats": found[1]}


def authentication(found):
    code, rest = found
    if code in (0, 3):
        return {}
    if code == 5:
        return {"salt": {"hex": rest.hex()}}
    if not rest:
        return {"code": code}
    return {"code": code, **({"mechanisms": text(rest)} if code == 10 else {"data": HIDDEN})}


BACK = {
    b"R": authentication,
    b"K": key,
    b"S": lambda found: {"parameter": text(found[0]), "value": text(found[1])},
    b"Z": lambda found: {"status": STATUS[found]},
    b"T": lambda found: {"columns": [column(one) for one in found]},
    b"D": lambda found: {"values": texts(found)},
    b"C": lambda found: {"command": text(found)},
    b"t": lambda found: {"types": found},
    b"E": error,
    b"N": error,
    b"A": lambda found: {"process": found[0], "channel": text(found[1]), "payload": text(found[2])},
    b"G": copy,
    b"H": copy,
    b"d": lambda found: {"data": text(found)},
}


def target(found):
    return {{b"S": "statement", b"P": "portal"}[found[0]]: text(found[1])}


FRONT = {
    b"Q": lambda found: {"query": text(found)},
    b"P": lambda found: {"statement": text(found[0]), "query": text(found[1]), "types": found[2]},
    b"B": lambda found: {"portal": text(found[0]), "statement": text(found[1]), "formats": found[2], "values": texts(found[3]),
                         "result_formats": found[4]},
    b"D": target,
    b"C": target,
    b"E": lambda found: {"portal": text(found[0]), "max_rows": found[1]},
    b"d": lambda found: {"data": text(found)},
    b"f": lambda found: {"reason": text(found)},
    b"p": lambda found: {"password": HIDDEN},
}


def packet(frame):
    """The name of a first packet, and what its object has beside that and its length."""
    name = REQUESTS.get(frame.code, "Request" if frame.code >> 16 == 1234 else "StartupMessage")
    if not frame.known:
        return name, {"profile": False, "code": frame.code, "bytes": HIDDEN if frame.code == 80877102 else text(frame.body)}
    if name == "StartupMessage":
        return name, {"parameters": [{"name": text(one), "value": text(value)} for one, value in frame.found]}
    return name, key(frame.found) if name == "CancelRequest" else {}


def message(frame):
    """The name of a message, and what its object has beside that and its length field."""
    name = (decoded.FRONT if frame.front else decoded.BACK).get(frame.tag, "Unknown")
    if frame.front and frame.tag == b"p":
        name = "PasswordMessage" if frame.known else "SASLInitialResponse" if b"\0" in frame.body else "SASLResponse"
    if not frame.known:
        hidden = frame.tag in ((b"p",) if frame.front else (b"R", b"K"))
        return name, {"profile": False, "tag": text(frame.tag), "bytes": HIDDEN if hidden else text(frame.body)}
    if not frame.front and frame.tag == b"R":
        name += decoded.REQUESTS.get(frame.found[0], "")
    more = (FRONT if frame.front else BACK).get(frame.tag)
    return name, more(frame.found) if more else {}


def made(frame):
    """The object of a frame."""
    name, more = packet(frame) if frame.is_packet else message(frame)
    return {"name": name, "length": len(frame.data) - (0 if frame.is_packet else 1), **more}


def line(frame):
    return json.dumps(made(frame), sort_keys=True, separators=(",", ":"), ensure_ascii=False)
