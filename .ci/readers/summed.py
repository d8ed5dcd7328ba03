"""What `pgpipe show --summary` prints of a stream, as docs/PGPIPE.md tells it. Read from the page, without a look at the program."""
import decoded
import objects


def label(frame):
    """What a frame is counted under."""
    name, more = objects.packet(frame) if frame.is_packet else objects.message(frame)
    if not frame.known:
        return f"{name}, not of the profile".encode()
    if name == "ReadyForQuery":
        return f"{name} {more['status']}".encode()
    if name == "ErrorResponse":
        codes = [text for code, text in frame.found if code == ord("C")]
        return f"{name} {decoded.escaped(codes[0]) if codes else '-'}".encode()
    return name.encode()


def line(counted, name):
    return f"{counted[0]:>12}{counted[1]:>12}  ".encode() + name + b"\n"


def show(data, front):
    """What is printed, what is said on standard error, and the status."""
    frames, said, status = decoded.read(data, front)
    rows, total = {}, [0, 0]
    for frame in frames:
        for counted in (rows.setdefault(label(frame), [0, 0]), total):
            counted[0] += 1
            counted[1] += len(frame.data)
    lines = [line(rows[name], name) for name in sorted(rows)]
    return b"    messages       bytes  name\n" + b"".join(lines) + line(total, b"total"), said, status
