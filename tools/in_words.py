#!/usr/bin/env python3
"""Prints a transcript and the output of its replay in words, line by line.

    python3 tools/in_words.py upload.transcript output

Each line of a file is printed behind its kind: the calls that the bytes of a connection make (RFC 5531, RFC 1813), the
replies, and other lines as they are. A reply is read by the call of its connection and xid, so the transcript comes first.
Bytes that are no call, or no reply to a call that was seen, are printed as hex digits."""

import sys

NFS, MOUNT = 100003, 100005
STABLE = ["UNSTABLE", "DATA_SYNC", "FILE_SYNC"]
MODES = ["UNCHECKED", "GUARDED", "EXCLUSIVE"]
TYPES = ["", "file", "directory", "block device", "character device", "link", "socket", "fifo"]
STATUSES = {
    0: "OK", 1: "PERM", 2: "NOENT", 5: "IO", 13: "ACCES", 17: "EXIST", 20: "NOTDIR", 21: "ISDIR", 22: "INVAL", 27: "FBIG",
    30: "ROFS", 63: "NAMETOOLONG", 66: "NOTEMPTY", 70: "STALE", 10001: "BADHANDLE", 10002: "NOT_SYNC", 10003: "BAD_COOKIE",
    10004: "NOTSUPP", 10005: "TOOSMALL", 10006: "SERVERFAULT", 10007: "BADTYPE", 10008: "JUKEBOX",
}  # fmt: skip
ACCEPTED = ["SUCCESS", "PROG_UNAVAIL", "PROG_MISMATCH", "PROC_UNAVAIL", "GARBAGE_ARGS", "SYSTEM_ERR"]


class Bad(Exception):
    """The bytes aren't what is read."""


class Reader:
    """The items of RFC 4506, from the front of a message."""

    def __init__(self, text):
        self.text, self.place = text, 0

    def take(self, count):
        self.place += count
        if self.place > len(self.text):
            raise Bad
        return self.text[self.place - count : self.place]

    def u32(self):
        return int.from_bytes(self.take(4), "big")

    def u64(self):
        return int.from_bytes(self.take(8), "big")

    def opaque(self):
        count = self.u32()
        data = self.take(count)
        self.take(-count % 4)
        return data

    def choice(self, names):
        number = self.u32()
        return names[number] if number < len(names) else f"choice {number}"

    def optional(self, read):
        return read(self) if self.u32() else None


# What a message holds, in words.


def quoted(data):
    """Bytes as a text, or how many they are."""
    if len(data) > 60:
        return f"{len(data)} bytes"
    if all(0x20 <= byte < 0x7F or byte == 0x0A for byte in data):
        return "`" + data.decode().replace("\n", "\\n") + "`"
    return data.hex()


def handle(r):
    text = r.opaque()
    if len(text) != 32:
        return f"handle {text.hex()}"
    file, system = Reader(text).u64(), int.from_bytes(text[8:16], "big")
    return f"file {file}" if system == 1 else f"file {file} of file system {system}"


def place(r):
    directory = handle(r)
    return f"{quoted(r.opaque())} in {directory}"


def moment(r):
    return f"{r.u32()}.{r.u32():09}"


def settings(r):
    parts = [f"{name} {value:o}" if name == "mode" else f"{name} {value}"
             for name, read in [("mode", Reader.u32), ("uid", Reader.u32), ("gid", Reader.u32), ("size", Reader.u64)]
             for value in [r.optional(read)] if value is not None]  # fmt: skip
    for name in ("atime", "mtime"):
        how = r.u32()
        parts += [] if how == 0 else [f"{name} now"] if how == 1 else [f"{name} {moment(r)}"]
    return ", ".join(parts) or "nothing set"


def attributes(r):
    kind, mode, links, uid, gid = (r.u32() for _ in range(5))
    size, _used, _device, _system, file = (r.u64() for _ in range(5))
    times = [moment(r) for _ in range(3)]
    kind = TYPES[kind] if 0 < kind < len(TYPES) else f"type {kind}"
    return f"{kind} {file}, mode {mode:o}, {links} links, uid {uid}, gid {gid}, {size} bytes, changed {times[1]}"


def wcc(r):
    """Attributes from before and after, which are left out in words."""
    r.optional(lambda r: (r.u64(), moment(r), moment(r)))
    r.optional(attributes)


def write_args(r):
    file, offset, count, stable = handle(r), r.u64(), r.u32(), r.choice(STABLE)
    data = r.opaque()
    said = "" if len(data) == count else f" of {len(data)}"
    return f"{file} at {offset}, {count}{said} bytes, {stable}: {quoted(data)}"


def create_args(r):
    name, mode = place(r), r.choice(MODES)
    return f"{name}, {mode}, {r.take(8).hex() if mode == 'EXCLUSIVE' else settings(r)}"


def mknod_args(r):
    name, kind = place(r), r.choice(TYPES)
    return f"{name}, {kind}"


def setattr_args(r):
    file, what, at = handle(r), settings(r), r.optional(moment)
    return f"{file}, {what}{f', if changed at {at}' if at else ''}"


def made(r):
    """The results of CREATE, MKDIR and SYMLINK."""
    file, attr = r.optional(handle), r.optional(attributes)
    wcc(r)
    return f"{file or 'no handle'}, {attr or 'no attributes'}"


def after_wcc(read):
    def results(r):
        wcc(r)
        return read(r)

    return results


def after_attributes(read):
    def results(r):
        r.optional(attributes)
        return read(r)

    return results


def entries(plus):
    def results(r):
        r.optional(attributes)
        r.take(8)
        names = []
        while r.u32():
            file, name, cookie = r.u64(), quoted(r.opaque()), r.u64()
            if plus:
                r.optional(attributes)
                r.optional(handle)
            names.append(f"{name} is file {file}, cookie {cookie}")
        return "; ".join([*names, "the end" if r.u32() else "more follow"])

    return results


def numbers(*names):
    """Words (4 bytes) and those marked with a star (8 bytes), by their names."""
    return lambda r: ", ".join(f"{name.strip('*')} {r.u64() if name.endswith('*') else r.u32()}" for name in names)


def nothing(r):
    return ""


def read_results(r):
    r.optional(attributes)
    count, end = r.u32(), r.u32()
    return f"{count} bytes{', to the end' if end else ''}: {quoted(r.opaque())}"


def mounts(r):
    pairs = []
    while r.u32():
        pairs.append(f"{quoted(r.opaque())} has {quoted(r.opaque())}")
    return "; ".join(pairs) or "nobody"


def exports(r):
    paths = []
    while r.u32():
        paths.append(quoted(r.opaque()))
        while r.u32():
            r.opaque()
    return ", ".join(paths) or "none"


def mounted(r):
    file, flavors = handle(r), r.u32()
    return f"{file}, flavors {', '.join(str(r.u32()) for _ in range(flavors))}"


def lookup_results(r):
    file, attr = handle(r), r.optional(attributes)
    r.optional(attributes)
    return f"{file}, {attr or 'no attributes'}"


def access_results(r):
    r.optional(attributes)
    return f"mask {r.u32():#x}"


# For each procedure its name, its arguments, and its results on OK behind the status; MOUNT's texts have no status but for MNT.
PROCEDURES = {
    NFS: [
        ("NULL", nothing, None),
        ("GETATTR", handle, attributes),
        ("SETATTR", setattr_args, after_wcc(nothing)),
        ("LOOKUP", place, lookup_results),
        ("ACCESS", lambda r: f"{handle(r)}, mask {r.u32():#x}", access_results),
        ("READLINK", handle, after_attributes(lambda r: quoted(r.opaque()))),
        ("READ", lambda r: f"{handle(r)} at {r.u64()}, {r.u32()} bytes", read_results),
        ("WRITE", write_args, after_wcc(lambda r: f"{r.u32()} bytes, {r.choice(STABLE)}, verifier {r.u64()}")),
        ("CREATE", create_args, made),
        ("MKDIR", lambda r: f"{place(r)}, {settings(r)}", made),
        ("SYMLINK", lambda r: f"{place(r)}, {settings(r)}, to {quoted(r.opaque())}", made),
        ("MKNOD", mknod_args, made),
        ("REMOVE", place, after_wcc(nothing)),
        ("RMDIR", place, after_wcc(nothing)),
        ("RENAME", lambda r: f"{place(r)} to {place(r)}", after_wcc(after_wcc(nothing))),
        ("LINK", lambda r: f"{handle(r)} as {place(r)}", after_attributes(after_wcc(nothing))),
        ("READDIR", lambda r: f"{handle(r)} behind cookie {r.u64()}, {r.take(8).hex()}, {r.u32()} bytes", entries(False)),
        ("READDIRPLUS", lambda r: f"{handle(r)} behind cookie {r.u64()}, {r.take(8).hex()}, {r.u32()} of {r.u32()} bytes", entries(True)),
        ("FSSTAT", handle, after_attributes(numbers("tbytes*", "fbytes*", "abytes*", "tfiles*", "ffiles*", "afiles*", "invarsec"))),
        ("FSINFO", handle, after_attributes(numbers("rtmax", "rtpref", "rtmult", "wtmax", "wtpref", "wtmult", "dtpref", "maxfilesize*"))),
        ("PATHCONF", handle, after_attributes(numbers("linkmax", "name_max", "no_trunc", "chown_restricted"))),
        ("COMMIT", lambda r: f"{handle(r)} at {r.u64()}, {r.u32()} bytes", after_wcc(lambda r: f"verifier {r.u64()}")),
    ],
    MOUNT: [
        ("MOUNT NULL", nothing, None),
        ("MNT", lambda r: quoted(r.opaque()), mounted),
        ("DUMP", nothing, mounts),
        ("UMNT", lambda r: quoted(r.opaque()), None),
        ("UMNTALL", nothing, None),
        ("EXPORT", nothing, exports),
    ],
}
WITHOUT_STATUS = {"NULL", "MOUNT NULL", "DUMP", "UMNT", "UMNTALL", "EXPORT"}


def procedure(program, number):
    rows = PROCEDURES.get(program, [])
    return rows[number] if number < len(rows) else None


def call_words(message):
    """A call in words, with its xid and its procedure."""
    r = Reader(message)
    xid, kind, rpc = r.u32(), r.u32(), r.u32()
    if kind != 0:
        raise Bad
    program, version, number = r.u32(), r.u32(), r.u32()
    flavor, body = r.u32(), r.opaque()
    r.u32()
    r.opaque()
    row = procedure(program, number) if (rpc, version) == (2, 3) else None
    by = ""
    if flavor == 1:
        cred = Reader(body)
        cred.u32()
        by = f" by {quoted(cred.opaque())} uid {cred.u32()} gid {cred.u32()}"
    if row is None:
        return f"xid {xid}{by}: program {program} version {version} procedure {number}", xid, None
    try:
        said = row[1](r)
    except Bad:
        said = f"arguments that aren't {row[0]}'s"
    return f"xid {xid}{by}: {row[0]}{' ' if said else ''}{said}", xid, row


def results_words(r, row):
    name, _args, read = row
    status = "" if name in WITHOUT_STATUS else r.u32()
    if status not in ("", 0):
        return f"{name} {STATUSES.get(status, status)}"
    said = read(r) if read else ""
    return " ".join(word for word in (name, "" if status == "" else "OK", said) if word)


def reply_words(message, calls):
    """A reply in words, by the calls of its connection."""
    r = Reader(message)
    xid, kind = r.u32(), r.u32()
    if kind != 1:
        raise Bad
    if r.u32():
        return f"xid {xid}: denied, {'RPC_MISMATCH' if r.u32() == 0 else 'AUTH_ERROR'}"
    r.u32()
    r.opaque()
    stat = r.choice(ACCEPTED)
    row = calls.get(xid)
    if stat != "SUCCESS":
        return f"xid {xid}: {row[0] + ' ' if row else ''}{stat}"
    rest = message[r.place :]
    return f"xid {xid}: {results_words(r, row) if row else rest.hex() or 'SUCCESS'}"


class Connections:
    """What came over each connection: bytes behind the last whole record, and the calls by their xids."""

    def __init__(self):
        self.held, self.calls = {}, {}

    def records(self, connection, piece):
        """The records that a piece completes, by the marks of RFC 5531 section 11."""
        text = self.held.pop(connection, b"") + piece
        start = place = 0
        record = b""
        while place + 4 <= len(text):
            mark = int.from_bytes(text[place : place + 4], "big")
            end = place + 4 + (mark & 0x7FFFFFFF)
            if end > len(text):
                break
            record, place = record + text[place + 4 : end], end
            if mark >> 31:
                yield record
                start, record = place, b""
        if start < len(text):
            self.held[connection] = text[start:]

    def heard(self, connection, piece):
        for record in self.records(connection, piece):
            try:
                words, xid, row = call_words(record)
                self.calls.setdefault(connection, {})[xid] = row
                yield words
            except Bad:
                yield f"no call: {record.hex()}"
        if connection in self.held:
            yield f"{len(self.held[connection])} bytes of the next record"

    def told(self, connection, text):
        try:
            return reply_words(text[4:], self.calls.get(connection, {}))
        except Bad:
            return text.hex()


def line_words(line, connections):
    """The lines that a line is in words."""
    kind, _, rest = line.partition(" ")
    connection, _, digits = rest.partition(" ")
    try:
        piece = bytes.fromhex(digits)
    except ValueError:
        return [line]
    if kind == "bytes" and piece:
        return [f"bytes {connection}: {words}" for words in connections.heard(connection, piece)]
    if kind == "reply" and piece:
        return [f"reply {connection}: {connections.told(connection, piece)}"]
    return [line]


def main(paths):
    connections = Connections()
    for path in paths:
        with sys.stdin if path == "-" else open(path, encoding="ascii", errors="backslashreplace") as lines:
            for line in lines:
                for words in line_words(line.rstrip("\n"), connections):
                    print(words)


if __name__ == "__main__":
    try:
        main(sys.argv[1:] or ["-"])
    except BrokenPipeError:
        sys.stderr.close()
