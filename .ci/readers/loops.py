"""Random SCRIPT and CALLS of `pgpipe loop`, each made by a `random.Random` alone: mostly such that requests are answered, and some spoiled."""
import inputs
import rows

WORDS = (b"", b"a", b"u", b"SELECT 1", b"\t", b"\\N", b"\\", b"x,y", b"\xff\xfe", b"\xc3\xa9", b"n\n", b"S", b"I", b"-1", b"0")
NUMBERS = (0, 1, 2, 3, 5, 8, 13, 14, 15, 20, 33, 59, 100, 1000, 4096, 4097, 65_535, 4_294_967_295)


def word(chance):
    found = chance.random()
    if found < 0.004:
        return b"a\0b"
    if found < 0.02:
        return chance.choice(WORDS) * chance.choice((7, 100, 5000))
    return chance.choice(WORDS)


def words(chance, most=3):
    return [word(chance) for _ in range(chance.randint(0, most))]


def values(chance):
    return [None if chance.random() < 0.3 else word(chance) for _ in range(chance.randint(0, 3))]


def number(chance, signed=False):
    found = chance.choice((0, 1, 23, 25, 65_535, 2_147_483_647, *((-1, -2_147_483_648) if signed else (4_294_967_295,))))
    return str(found).encode()


def pairs(chance):
    found = []
    for _ in range(chance.choice((0, 1, 2, 4))):
        found += [chance.choice((b"S", b"V", b"C", b"M", b"!", b"\xff")), word(chance)]
    return found


def head(chance):
    return [chance.choice((b"text", b"binary")), chance.choice((b"0", b"1", b"2", b"7"))]


# ---- answers

def aside(chance):
    return chance.choice((
        lambda: [b"notice", *pairs(chance)],
        lambda: [b"set", word(chance), word(chance)],
        lambda: [b"notify", number(chance, True), word(chance), word(chance)],
    ))()


def rows_of(chance):
    return [[b"row", *values(chance)] for _ in range(chance.choice((0, 1, 2)))]


def result(chance):
    found = chance.randrange(4)
    if found == 0:
        return [[b"rows", word(chance), *words(chance)], *rows_of(chance)]
    if found == 1:
        return [[b"command", word(chance)]]
    if found == 2:
        return [[b"empty"]]
    return [[b"copyout", word(chance), *head(chance)], *([b"chunk", word(chance)] for _ in range(chance.randint(0, 3)))]


def copy_in(chance):
    way = [b"accept", word(chance)] if chance.random() < 0.6 else [b"refuse", str(chance.randint(0, 4)).encode(), *pairs(chance)]
    return [[b"copyin", *head(chance), *way]]


def step_answer(chance, step):
    if step[0] == b"describe":
        types = [[b"paramtypes", *(number(chance) for _ in range(chance.randint(0, 2)))]] if step[1] == b"S" else []
        return [*types, [b"described", *words(chance)]]
    if step[0] == b"execute":
        way = chance.choice(([b"complete", word(chance)], [b"empty"], [b"suspended"]))
        return [[b"executed", *way], *rows_of(chance)]
    return [[{b"parse": b"parsed", b"bind": b"bound", b"close": b"shut"}[step[0]]]]


def answer(chance, request):
    """The lines of an answer to the request, which mostly fits it."""
    if chance.random() < 0.06:
        request = chance.choice((None, steps(chance)))
    error = chance.random() < 0.25
    if request is None:
        copies = chance.random() < 0.6
        parts = [result(chance) for _ in range(chance.choice((0, 1, 1, 2)))]
        if copies:
            parts.insert(chance.randint(0, len(parts)), copy_in(chance))
        if copies and chance.random() < 0.02:
            parts.append(copy_in(chance))
    else:
        parts = [step_answer(chance, step) for step in request]
        if error:
            parts = parts[:chance.randint(0, len(parts))]
    lines = [line for part in parts for line in part]
    if error:
        lines.append([b"error", *pairs(chance)])
    lines = [aside(chance) for _ in range(chance.choice((0, 0, 0, 1, 2)))] + lines
    return [[b"answer", chance.choice((b"I", b"T", b"E"))], *lines]


# ---- calls

def steps(chance):
    found = []
    for _ in range(chance.choice((0, 1, 2, 3, 5))):
        target = chance.choice((b"S", b"P"))
        found.append(chance.choice((
            [b"parse", word(chance), word(chance), *(number(chance) for _ in range(chance.randint(0, 2)))],
            [b"bind", word(chance), word(chance), *values(chance)],
            [b"describe", target, word(chance)],
            [b"execute", word(chance), number(chance, True)],
            [b"close", target, word(chance)],
        )))
    return found


def moves(chance):
    """Events that move something, up to all of it."""
    found = []
    for _ in range(chance.choice((0, 0, 1, 3, 8))):
        verb = chance.choice((b"toback", b"toclient", b"step"))
        found.append([verb] if verb == b"step" else [verb, str(chance.choice(NUMBERS)).encode()])
    if chance.random() < 0.75:
        found.append([b"flow"])
    return found


def copies(chance, path):
    found = []
    for _ in range(chance.choice((0, 1, 2, 4))):
        found.append([b"chunk", word(chance)] if chance.random() < 0.8 else [b"file", path])
        found += moves(chance) if chance.random() < 0.3 else []
    return [*found, chance.choice(([b"done"], [b"done"], [b"fail", word(chance)], [b"step"]))]


def settings(chance, auth):
    user = chance.choice((b"u", b"c", b"u")) if chance.random() < 0.95 else word(chance)
    found = [[b"user", user]] if chance.random() < 0.98 else []
    if auth[0] != b"trust" or chance.random() < 0.1:
        found.append([b"password", auth[1] if auth[1:] and chance.random() < 0.8 else word(chance)])
    for verb in (b"database", b"option"):
        if chance.random() < 0.15:
            found.append([verb, word(chance)] if verb == b"database" else [verb, chance.choice((b"user", b"p", b"p", b"p", word(chance))), word(chance)])
    return found if chance.random() < 0.97 else found[:-1]


def make(chance, path):
    """The bytes of SCRIPT and of CALLS, and the cut."""
    auth = chance.choice(([b"trust"], [b"trust"], [b"cleartext", word(chance)], [b"md5", word(chance), chance.randbytes(4).hex().encode()]))
    script = [[b"auth", *auth]] if auth[0] != b"trust" or chance.random() < 0.5 else []
    script += [[b"pair", word(chance), word(chance)] for _ in range(chance.choice((0, 0, 0, 1, 2)))]
    script += [[b"key", number(chance, True), number(chance, True)]] if chance.random() < 0.2 else []
    calls = settings(chance, auth)
    calls += [[b"start"], *moves(chance)]
    for _ in range(chance.choice((0, 1, 2, 3))):
        request = None if chance.random() < 0.65 else steps(chance)
        lines = answer(chance, request)
        script += lines
        calls += [[b"query", word(chance)]] if request is None else [[b"group"], *request, [b"sync"]]
        calls += moves(chance)
        if any(line[0] == b"copyin" for line in lines) or chance.random() < 0.05:
            calls += [*copies(chance, path), *moves(chance)]
        if chance.random() < 0.06:
            calls.append(chance.choice(([b"breakback"], [b"breakclient"], [b"terminate"], [b"start"])))
    calls += [[b"breakclient"]] if chance.random() < 0.1 else []
    return spoiled(chance, script), spoiled(chance, calls), chance.choice((None, None, 1, 2, 7, 100, 4096))


def spoiled(chance, lines):
    """The bytes of the lines; some in another place, twice, left out, or with another field, and seldom with other bytes."""
    lines = [list(line) for line in lines]
    if chance.random() < 0.12 and lines:
        way, place, other = chance.randrange(5), chance.randrange(len(lines)), chance.randrange(len(lines))
        if way == 0:
            del lines[place]
        elif way == 1:
            lines.insert(other, lines[place])
        elif way == 2:
            lines[place], lines[other] = lines[other], lines[place]
        elif way == 3:
            lines[place].insert(chance.randint(0, len(lines[place])), chance.choice((None, b"", b"-1", b"65536", b"4294967296", b"text", b"01")))
        else:
            del lines[place][chance.randrange(len(lines[place]))]
    data = b"".join(rows.text_line(line) if line else b"\n" for line in lines)
    if chance.random() < 0.05:
        data = inputs.spoiled(chance, data)
    return data.replace(b"\n", b"\r\n") if chance.random() < 0.02 else data
