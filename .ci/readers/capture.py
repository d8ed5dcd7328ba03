"""A capture file of one connection, made of the pieces that went over it."""
import struct

SERVER, CLIENT = (0x7F000001, 5432), (0x7F000001, 40_000)
RAW_IP = 101  # the kind of packets, by the list of link types of pcap
LONGEST = 16_384  # bytes of a packet
SYN, ACK, PUSH, FIN = 2, 16, 8, 1


def segment(source, target, sent, heard, flags, data):
    """An IPv4 packet with a TCP segment, whose checksums are left out."""
    ip = struct.pack(">BBHHHBBHII", 0x45, 0, 40 + len(data), 0, 0x4000, 64, 6, 0, source[0], target[0])
    return ip + struct.pack(">HHIIBBHHH", source[1], target[1], sent % 2**32, heard % 2**32, 5 << 4, flags, 65_535, 0, 0) + data


class Capture:
    """Writes the packets of a connection: first those that open it, then those of each piece, and last those that close it."""

    def __init__(self, file):
        self.file, self.count, self.sent = file, 0, {True: 0, False: 0}
        file.write(struct.pack("<IHHiIII", 0xA1B2C3D4, 2, 4, 0, 0, 65_535, RAW_IP))
        self.packet(True, SYN)
        self.packet(False, SYN | ACK)
        self.packet(True, ACK)

    def packet(self, front, flags, data=b""):
        source, target = (CLIENT, SERVER) if front else (SERVER, CLIENT)
        packet = segment(source, target, self.sent[front], self.sent[not front] if flags & ACK else 0, flags, data)
        # a packet each ten microseconds
        seconds, rest = divmod(self.count, 100_000)
        self.file.write(struct.pack("<IIII", seconds, rest * 10, len(packet), len(packet)) + packet)
        self.count += 1
        # the packets that open and close it count for a byte each
        self.sent[front] += len(data) + (1 if flags & (SYN | FIN) else 0)

    def piece(self, front, data):
        """Bytes of the client, where front is true, or of the server."""
        for at in range(0, len(data), LONGEST):
            self.packet(front, PUSH | ACK, data[at:at + LONGEST])

    def close(self):
        for front in (True, False):
            self.packet(front, FIN | ACK)
