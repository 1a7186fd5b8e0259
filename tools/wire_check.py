#!/usr/bin/env python3
"""Compares Wireshark's reading of requests and answers with a decoding of our own.

    tools/wire_check.py REQUESTS ANSWERS

Both files have lines of hexadecimal: COMPOUND4args (RFC 5661, 7862) in one, COMPOUND4res in the other. Every served
pair goes into a capture, as an RPC call and its reply over TCP. tshark reads the capture. Its list of fields (name,
place, size, value) must equal ours in every message, with nothing left over and no complaint.
"""
import collections
import os
import struct
import subprocess
import sys
import tempfile
import xml.etree.ElementTree as ElementTree

NAMES = {
    0: "compound", 9: "GETATTR", 10: "GETFH", 22: "PUTFH", 25: "READ", 31: "RESTOREFH", 32: "SAVEFH", 34: "SETATTR",
    38: "WRITE", 53: "SEQUENCE", 59: "ALLOCATE", 60: "COPY", 62: "DEALLOCATE", 68: "READ_PLUS", 69: "SEEK", 71: "CLONE",
    10044: "ILLEGAL",
}
STATUSES = {
    0: "OK", 6: "NXIO", 22: "INVAL", 27: "FBIG", 28: "NOSPC", 70: "STALE", 10001: "BADHANDLE", 10004: "NOTSUPP",
    10020: "NOFILEHANDLE", 10021: "MINOR_VERS_MISMATCH", 10025: "BAD_STATEID", 10036: "BADXDR", 10044: "OP_ILLEGAL",
    10064: "SEQUENCE_POS", 10070: "TOO_MANY_OPS", 10090: "UNION_NOTSUPP",
}
COMPOUND, SETATTR = 0, 34
SUPPORTED_ATTRS = 0
# The other attributes that we have: Wireshark's name and the size of the value.
ATTRIBUTES = {
    4: ("nfs.fattr4.size", 8), 45: ("nfs.fattr4.space_used", 8), 77: ("nfs.fattr4.clone_block_size", 4),
    78: ("nfs.fattr4.space_freed", 8),
}


def name_of(operation):
    return NAMES.get(operation, f"operation {operation}")


# Our own decoding. A field has Wireshark's name, and its place in the message.

Field = collections.namedtuple("Field", "part name place size value")

# Wireshark's warning of a result's empty bitmap, as nothing that was asked for is there: a field without place and size.
NO_MASK, NOWHERE = "nfs.protocol_violation", (0, 0)


class Damaged(Exception):
    pass


class Body:
    def __init__(self, data):
        self.data, self.at, self.part, self.fields = data, 0, COMPOUND, []

    def peek(self, size=4):
        if self.at + size > len(self.data):
            raise Damaged(f"bytes missing at {self.at}")
        return self.data[self.at:self.at + size]

    def skip(self):
        """A number without a field."""
        value = int.from_bytes(self.peek(), "big")
        self.at += 4
        return value

    def note(self, name, size, value):
        self.fields.append(Field(self.part, name, self.at, size, value))
        self.at += size

    def number(self, name, size=4, most=None):
        value = int.from_bytes(self.peek(size), "big")
        if most is not None and value > most:
            raise Damaged(f"{name} is {value} at {self.at}")
        self.note(name, size, value)
        return value

    def fixed(self, name, size):
        self.note(name, size, self.peek(size).hex())

    def pad(self, length):
        size = -length % 4
        if any(self.peek(size)):
            raise Damaged(f"a nonzero pad at {self.at}")
        return size

    def opaque(self, name):
        length = self.number("rpc.opaque_length")
        self.fixed(name, length)
        if self.pad(length):
            self.fixed("rpc.fill_bytes", self.pad(length))

    def operation(self):
        self.part = int.from_bytes(self.peek(), "big")
        return self.number("nfs.opcode")


def number(name, size=4, most=None):
    return lambda body: body.number(name, size, most)


def stateid(body):
    body.fixed("nfs.stateid", 16)
    body.at -= 16  # Wireshark shows the whole and both parts
    body.number("nfs.stateid.seqid")
    body.fixed("nfs.stateid.other", 12)


def handle(body):
    length = body.number("nfs.fh.length", most=128)
    if length:
        body.fixed("nfs.fhandle", length)
    body.at += body.pad(length)  # no field of its own


def data(name):
    def read(body):
        body.number(name)
        body.at -= 4  # Wireshark shows the length twice
        body.opaque("nfs.data")
    return read


def bitmap(body):
    """The words of a bitmap4, each with its place."""
    count = body.skip()
    if count > 4:
        raise Damaged(f"a bitmap of {count} words at {body.at - 4}")
    return [(body.at, body.skip()) for _ in range(count)]


def attributes(body, words, value):
    """Wireshark shows each word that isn't zero, and behind it its attributes with their values."""
    for at, (place, word) in enumerate(words):
        numbers = [32 * at + bit for bit in range(32) if word >> bit & 1]
        if numbers:
            body.fields.append(Field(body.part, "nfs.attr_mask", place, 4, word))
            body.fields.append(Field(body.part, "nfs.attr_count", place, 4, len(numbers)))
        for number in numbers:
            start, first = body.at, len(body.fields)
            value(body, number)
            body.fields.insert(first, Field(body.part, "nfs.attr", start, body.at - start, number))


def asked(body):
    attributes(body, bitmap(body), lambda *_: None)


def value_of_attribute(body, number):
    if number == SUPPORTED_ATTRS:
        asked(body)
    elif number in ATTRIBUTES:
        body.number(*ATTRIBUTES[number])
    else:
        raise Damaged(f"attribute {number} isn't read here")


def told(body):
    words = bitmap(body)
    if not words:
        body.fields.append(Field(body.part, NO_MASK, *NOWHERE, ""))
    elif words[-1][1] == 0:
        raise Damaged(f"a last word of zeros at {words[-1][0]}")
    size = body.skip()
    end = body.at + size
    attributes(body, words, value_of_attribute)
    if body.at != end:
        raise Damaged(f"values up to {body.at}, not {end}")


def servers(body):
    if body.number("nfs.source_servers"):
        raise Damaged("a source server isn't read here")


def callback(body):
    if body.number("nfs.callback_ids", most=1):
        stateid(body)


def contents(body):
    count = int.from_bytes(body.peek(), "big")
    if count == 0:
        return body.note("rpc.array_no_values", 4, "")
    body.number("rpc.array.len")
    for _ in range(count):
        if body.number("nfs.content.type", most=1) == 0:
            offset(body)
            data("nfs.read.data_length")(body)
        else:
            offset(body)
            length(body)


offset = number("nfs.offset4", 8)
length = number("nfs.length4", 8)
count = number("nfs.count4")
eof = number("nfs.eof", most=1)
stable_how = number("nfs.stable_how4", most=2)
verifier = number("nfs.verifier4", 8)
content = number("nfs.data_content")
consecutive = number("nfs.consecutive", most=1)
synchronous = number("nfs.synchronous", most=1)

ARGUMENTS = {
    "GETATTR": [asked],
    "GETFH": [],
    "PUTFH": [handle],
    "READ": [stateid, offset, count],
    "RESTOREFH": [],
    "SAVEFH": [],
    "WRITE": [stateid, offset, stable_how, data("nfs.write.data_length")],
    "ALLOCATE": [stateid, offset, length],
    "COPY": [stateid, stateid, offset, offset, length, consecutive, synchronous, servers],
    "DEALLOCATE": [stateid, offset, length],
    "READ_PLUS": [stateid, offset, count],
    "SEEK": [stateid, offset, content],
    "CLONE": [stateid, stateid, offset, offset, length],
}
RESULTS = {
    "GETATTR": [told],
    "GETFH": [handle],
    "PUTFH": [],
    "READ": [eof, data("nfs.read.data_length")],
    "RESTOREFH": [],
    "SAVEFH": [],
    "WRITE": [count, stable_how, verifier],
    "ALLOCATE": [],
    "COPY": [callback, length, stable_how, verifier, consecutive, synchronous],
    "DEALLOCATE": [],
    "READ_PLUS": [eof, contents],
    "SEEK": [eof, offset],
    "CLONE": [],
}


def run(body, layouts):
    name = name_of(body.part)
    if name not in layouts:
        raise Damaged(f"{name} isn't read here")
    for read in layouts[name]:
        read(body)


def decode_call(message):
    """The fields of a COMPOUND4args; bytes after its last operation are one field."""
    body = Body(message)
    body.opaque("nfs.tag")
    body.number("nfs.minorversion")
    for _ in range(body.number("nfs.ops.count")):
        body.operation()
        run(body, ARGUMENTS)
    body.part = COMPOUND
    if message[body.at:]:
        body.fixed("data.data", len(message) - body.at)
    return body.fields


def decode_reply(message):
    """The fields of a COMPOUND4res, its status, and the number and status of each result."""
    body = Body(message)
    status = body.number("nfs.nfsstat4")
    body.opaque("nfs.tag")
    results = []
    for _ in range(body.number("nfs.ops.count")):
        operation = body.operation()
        results.append((operation, body.number("nfs.nfsstat4")))
        if results[-1][1] == 0:
            run(body, RESULTS)
    if message[body.at:]:
        raise Damaged(f"bytes left at {body.at}")
    return body.fields, status, results


# The capture

BEFORE_RPC = 14 + 20 + 20 + 4  # Ethernet, IPv4, TCP, record mark
# What follows the transaction number; credentials and verifiers are AUTH_NONE.
CALL = struct.pack(">9I", 0, 2, 100003, 4, 1, 0, 0, 0, 0)  # RPC version 2, NFS version 4, COMPOUND
REPLY = struct.pack(">5I", 1, 0, 0, 0, 0)  # accepted, success


def checksum(header):
    total = sum(struct.unpack(f">{len(header) // 2}H", header))
    while total >> 16:
        total = (total & 0xFFFF) + (total >> 16)
    return ~total & 0xFFFF


class Capture:
    """A pcap file with one TCP connection."""

    def __init__(self):
        self.packets = [struct.pack(">IHHIIII", 0xA1B2C3D4, 2, 4, 0, 0, 262144, 1)]
        self.sent = [1, 1]

    def add(self, side, xid, header, message):
        message = struct.pack(">I", xid) + header + message
        message = struct.pack(">I", 1 << 31 | len(message)) + message
        ports, ends = (800, 2049), (b"\x0a\0\0\1", b"\x0a\0\0\2")
        tcp = struct.pack(">HHIIBBHHH", ports[side], ports[1 - side], self.sent[side], self.sent[1 - side],
                          5 << 4, 0x18, 65535, 0, 0)
        ip = struct.pack(">BBHIBBH", 0x45, 0, 20 + len(tcp) + len(message), 0, 64, 6, 0) + ends[side] + ends[1 - side]
        ip = ip[:10] + struct.pack(">H", checksum(ip)) + ip[12:]
        packet = bytes(12) + b"\x08\0" + ip + tcp + message
        self.sent[side] += len(message)
        self.packets.append(struct.pack(">IIII", len(self.packets), 0, len(packet), len(packet)) + packet)


# Wireshark's reading

# Made up, or shown a second time.
DERIVED = {
    "", "rpc.programversion", "nfs.procedure_v4", "nfs.main_opcode", "nfs.status", "nfs.fh.hash", "nfs.stateid.hash",
    "nfs.stateid.other_hash", "nfs.contents", "data", "data.len",
}
BYTES = {"nfs.tag", "nfs.data", "nfs.fhandle", "nfs.stateid", "nfs.stateid.other", "rpc.fill_bytes", "data.data"}


def tshark(*arguments):
    # A tag need not be text.
    done = subprocess.run(["tshark", *arguments], capture_output=True, encoding="ascii", errors="replace")
    if done.returncode:
        sys.exit(done.stderr)
    return done.stdout


def read_capture(capture):
    with tempfile.TemporaryDirectory() as directory:
        path = os.path.join(directory, "frames.pcap")
        with open(path, "wb") as file:
            file.write(b"".join(capture.packets))
        return ElementTree.fromstring(tshark("-n", "-r", path, "-T", "pdml")).findall("packet")


def value_of(node):
    if node.get("name") in BYTES:
        return node.get("value", "")
    show = {"False": "0", "True": "1"}.get(node.get("show"), node.get("show"))
    try:
        return int(show, 0)
    except ValueError:
        return show


def their_fields(packet, start):
    """What our decoding gives, as Wireshark sees it, and its complaints."""
    fields, complaints = [], []
    for node in packet.iter():
        if node.get("name") in ("_ws.malformed", "_ws.expert") and node.find(f"field[@name='{NO_MASK}']") is None:
            complaints.append(node.get("showname"))
    for node in packet.iterfind("proto[@name='nfs']//field"):
        name = node.get("name")
        if name == NO_MASK:
            fields.append((name, *NOWHERE, ""))
        elif name not in DERIVED and not name.startswith("_ws."):
            fields.append((name, int(node.get("pos")) - start, int(node.get("size")), value_of(node)))
    return fields, complaints


# The comparison

class Check:
    def __init__(self):
        self.known = {line.split("\t")[2] for line in tshark("-G", "fields").splitlines() if line.startswith("F\t")}
        self.unknown = set()
        self.parts, self.fields = collections.Counter(), collections.Counter()
        self.differences = 0

    def differ(self, where, what):
        self.differences += 1
        print(f"{where}: {what}")

    def compare(self, where, kind, ours, packet, start, excused=False):
        self.parts[COMPOUND, kind] += 1
        self.unknown |= {field.name for field in ours} - self.known
        ours = [field for field in ours if field.name in self.known]
        theirs, complaints = their_fields(packet, start)
        if [field[0] for field in theirs[-2:]] == ["nfs.opcode", "data.data"] and theirs[-2][1] == theirs[-1][1]:
            # The operation is named, and all from its number on is left as data.
            self.unknown.add(name_of(theirs[-2][3]))
            theirs.pop()
            ours = ours[:len(theirs)]
        if complaints and not excused:
            self.differ(where, "; ".join(filter(None, complaints)))
        for at in range(max(len(ours), len(theirs))):
            own = ours[at][1:] if at < len(ours) else None
            their = theirs[at] if at < len(theirs) else None
            if own != their:
                return self.differ(where, f"ours {own}, Wireshark's {their}")
        for field in ours:
            self.fields[field.part] += 1
            if field.name == "nfs.opcode":
                self.parts[field.part, kind] += 1


def counted(statuses):
    return ", ".join(f"{STATUSES.get(status, status)} {times}" for status, times in sorted(statuses.items()))


def lines_of(path):
    with open(path, "rb") as file:
        lines = file.read().split(b"\n")
    return lines if lines[-1] else lines[:-1]


def main():
    if len(sys.argv) != 3:
        sys.exit(__doc__)
    requests, answers = lines_of(sys.argv[1]), lines_of(sys.argv[2])
    if len(requests) != len(answers):
        sys.exit(f"{len(requests)} requests, {len(answers)} answers")
    served = [(at, bytes.fromhex(request.decode()), bytes.fromhex(answer.decode()))
              for at, (request, answer) in enumerate(zip(requests, answers), 1) if not answer.startswith(b"-")]
    capture = Capture()
    for at, request, answer in served:
        capture.add(0, at, CALL, request)
        capture.add(1, at, REPLY, answer)
    packets = read_capture(capture)

    check, unread, setattrs, empty = Check(), collections.Counter(), 0, 0
    if len(packets) != 2 * len(served):
        check.differ("capture", f"{len(packets)} packets")
    for (at, request, answer), call, reply in zip(served, packets[::2], packets[1::2]):
        try:
            fields, status, results = decode_reply(answer)
        except Damaged as damage:
            check.differ(f"line {at}, reply", damage)
            continue
        # RFC 5661 has a bitmap in SETATTR's result after any status; an operation that isn't served has none.
        is_setattr = bool(results) and results[-1][0] == SETATTR
        setattrs += is_setattr
        empty += sum(field.name == NO_MASK for field in fields)
        check.compare(f"line {at}, reply", "reply", fields, reply, BEFORE_RPC + 4 + len(REPLY), is_setattr)
        try:
            fields = decode_call(request)
        except Damaged as damage:
            # What stands after the operation that failed isn't read.
            unread[status] += 1
            if status == 0:
                check.differ(f"line {at}, call", damage)
            continue
        check.compare(f"line {at}, call", "call", fields, call, BEFORE_RPC + 4 + len(CALL))

    print(tshark("--version").split("\n")[0])
    print(f"{len(requests)} lines, {len(served)} served")
    print("calls not compared, as they don't decode:", counted(unread))
    print("SETATTR results without RFC 5661's bitmap, which Wireshark misses:", setattrs)
    print("GETATTR results with an empty bitmap, of which Wireshark warns:", empty)
    print("not read by this version:", ", ".join(sorted(check.unknown)) or "none")
    print(f"\n{'compared':14}{'in calls':>10}{'in replies':>12}{'fields':>8}")
    for part in sorted(check.fields):
        print(f"{name_of(part):14}{check.parts[part, 'call']:10}{check.parts[part, 'reply']:12}{check.fields[part]:8}")
    print(f"{'all fields':36}{sum(check.fields.values()):8}")
    print(f"\n{check.differences} differences")
    sys.exit(check.differences > 0)


if __name__ == "__main__":
    main()
