"""The rows of COPY files, and what `pgpipe convert` makes of one, as docs/PROTOCOL.md tells it. Read from the page, and from PostgreSQL's
page on COPY, without a look at the program."""
import struct

SIGNATURE = b"PGCOPY\n\xff\r\n\0"
GREATEST_FIELD = 1_073_741_823
MOST_FIELDS = 32_767
LETTERS = {8: b"b", 9: b"t", 10: b"n", 11: b"v", 12: b"f", 13: b"r"}
BYTES = {letter[0]: byte for byte, letter in LETTERS.items()}
NEWLINE, RETURN, BACKSLASH = 10, 13, 92


class Fault(Exception):
    """What stands in the place of a row, as T1 to T5, B1 to B7, R1, R2 and R4 name it."""


# ---- text

def units(data):
    """Pairs of where a unit begins and its bytes: a backslash with the byte after it, or one byte."""
    at = 0
    while at < len(data):
        size = 2 if data[at] == BACKSLASH and at + 1 < len(data) else 1
        yield at, data[at:at + size]
        at += size


def ending(data):
    """How the lines of a file end, by its first unit that is a newline or a return; None where there is none."""
    for at, unit in units(data):
        if unit == b"\n":
            return b"\n"
        if unit == b"\r":
            return b"\r\n" if data[at + 1:at + 2] == b"\n" else b"\r"
    return None


def lines_of(data):
    """The lines of a file: each its units, and whether it was ended."""
    end, line, skip = ending(data), [], False
    for at, unit in units(data):
        if skip:
            skip = False
            continue
        if end is not None and unit == end[:1] and data[at:at + len(end)] == end:
            yield line, True
            line, skip = [], len(end) == 2
        else:
            line.append(unit)
    if line:
        yield line, False


def meaning(field):
    """The bytes of a field that isn't null, with its escapes undone."""
    found, at = bytearray(), 0
    while at < len(field):
        byte = field[at]
        at += 1
        if byte != BACKSLASH:
            found.append(byte)
            continue
        byte = field[at]
        at += 1
        if byte in b"01234567":
            digits = field[at - 1:at + 2]
            count = 1
            while count < len(digits) and digits[count] in b"01234567":
                count += 1
            found.append(int(digits[:count], 8) % 256)
            at += count - 1
        elif byte == ord("x"):
            count = 0
            while count < 2 and field[at + count:at + count + 1] in [bytes([digit]) for digit in b"0123456789abcdefABCDEF"]:
                count += 1
            found.append(int(field[at:at + count], 16) if count else byte)
            at += count
        else:
            found.append(BYTES.get(byte, byte))
    return bytes(found)


def fields_of(line, delimiter):
    found = [b""]
    for unit in line:
        if unit == delimiter:
            found.append(b"")
        else:
            found[-1] += unit
    return found


def text_rows(data, columns, delimiter=b"\t", null=b"\\N"):
    """The rows of a text file up to its end mark, and then perhaps a Fault. Any number of columns is right where it is None."""
    for line, ended in lines_of(data):
        if b"".join(line) == b"\\.":
            return
        # what ends a line was taken off: of a file whose lines end by both, a return and a newline may be left alone
        if b"\r" in line:
            raise Fault("T1 RawReturn")
        if b"\n" in line:
            raise Fault("T5 RawNewline")
        if not ended and line[-1] == b"\\":
            raise Fault("T2 LoneBackslash")
        row = fields_of(line, delimiter)
        if len(row) != columns if columns is not None else len(row) > MOST_FIELDS:
            raise Fault(f"T3 Columns {len(row)}")
        yield [None if field == null else meaning(field) for field in row]


def written_field(value, delimiter):
    found = bytearray()
    for byte in value:
        if byte in LETTERS:
            found += b"\\" + LETTERS[byte]
        elif byte == BACKSLASH or byte == delimiter[0]:
            found += bytes([BACKSLASH, byte])
        else:
            found.append(byte)
    return bytes(found)


def text_line(row, delimiter=b"\t", null=b"\\N"):
    written = []
    for place, value in enumerate(row):
        field = null if value is None else written_field(value, delimiter)
        if value is not None and field == null:
            raise Fault(f"R4 LikeNull {place}")
        written.append(field)
    return delimiter.join(written) + b"\n"


# ---- binary

def binary_rows(data, columns):
    """The rows of a binary file, and then perhaps a Fault."""
    at = 0

    def take(count):
        nonlocal at
        if at + count > len(data):
            raise Fault("B6 Truncated")
        at += count
        return data[at - count:at]

    def number(form):
        return struct.unpack(form, take(struct.calcsize(form)))[0]

    if take(11) != SIGNATURE:
        raise Fault("B1 Signature")
    if (flags := number(">I")) >> 16:
        raise Fault(f"B2 Flags {flags}")
    if (extension := number(">i")) < 0:
        raise Fault(f"B3 Extension {extension}")
    take(extension)
    while (count := number(">h")) != -1:
        if count != columns:
            raise Fault(f"B4 FieldCount {count}")
        row = []
        for _ in range(columns):
            size = number(">i")
            if size < -1 or size > GREATEST_FIELD:
                raise Fault(f"B5 FieldLength {size}")
            row.append(None if size == -1 else take(size))
        yield row
    if at < len(data):
        raise Fault("B7 AfterTrailer")


def binary_row(row):
    values = (b"\xff\xff\xff\xff" if value is None else struct.pack(">i", len(value)) + value for value in row)
    return struct.pack(">h", len(row)) + b"".join(values)


# ---- both

def options_fault(delimiter, null):
    """Why there are no such options, or None."""
    if delimiter in (b"\n", b"\r", b"\\", b".") or delimiter.isdigit() or (delimiter.isalpha() and delimiter.islower()):
        return f"O1 Delimiter {delimiter[0]}"
    parts = [unit for _, unit in units(null)]
    if b"\n" in null or b"\r" in null or delimiter in null or null == b"\\." or (parts and parts[-1] == b"\\"):
        return "O2 NullMark"
    return None


def convert(data, source, target, columns, delimiter=b"\t", null=b"\\N"):
    """What is written, what is said on standard error, and the status."""
    if fault := options_fault(delimiter, null):
        return b"", f"pgpipe: {fault}\n".encode(), 2
    written = [] if target == "text" else [SIGNATURE + bytes(8)]
    rows = text_rows(data, columns, delimiter, null) if source == "text" else binary_rows(data, columns)
    try:
        for row in rows:
            written.append(text_line(row, delimiter, null) if target == "text" else binary_row(row))
    except Fault as fault:
        return b"".join(written), f"pgpipe: {fault}\n".encode(), 2
    if target == "binary":
        written.append(b"\xff\xff")
    return b"".join(written), b"", 0
