"""Reads a gateway's log from etcd, by its JSON gateway."""
import base64
import collections
import hashlib
import json
import ssl
import urllib.error
import urllib.request

# an entry of the log: its number, its name, that of the entry before, its time in milliseconds since 1970, and its lines. `sent` has for each line its
# number in the entry, from 1, and the SPIFFE ID of its caller. `keep` and `room` are for how many milliseconds tokens are retained and how many bytes
# they may take, or 0 for what is usual, and `added` has the lines, from 0, to which a gateway has added revisions
Entry = collections.namedtuple("Entry", "number name before time lines sent keep room added", defaults=(0, 0, ()))
# what replaces the entries up to `entry`, which has the name `name`: lines that make the book at the commit number `place`, and the retained tokens
# with their replies and times, and whether they took half of their room, or all of it, when they were counted
Snapshot = collections.namedtuple("Snapshot", "entry name place lines tokens is_filling is_full", defaults=(False, False))

PAGE = 500
# the version of the form of a log that this module reads, and the folder of its keys
FORMAT, FOLDER = 2, "2/"
# the name of the entry before the first one
ORIGIN = "0" * 64


class Damaged(Exception):
    """The log doesn't have the hashes that it names, or has another format."""


def read_entry(number, value):
    """Returns an entry, with all its lines, from its value in etcd."""
    name, _, rest = value.partition(b" ")
    if hashlib.sha256(rest).hexdigest().encode() != name:
        raise Damaged(f"entry {number} doesn't have its hash")
    first, *lines = rest.removesuffix(b"\n").split(b"\n")
    header = json.loads(first)
    if header["entry"] != number:
        raise Damaged(f"entry {number} is entry {header['entry']}")
    callers, by = header.get("callers") or [], header.get("by") or []
    sent = [(at, callers[by[at - 1]] if at <= len(by) else "") for at in range(1, len(lines) + 1)]
    return Entry(number, name.decode(), header["before"], header["time"], lines, sent, header.get("keep", 0), header.get("room", 0),
                 header.get("added", ()))


def follows(entry, before, time):
    """Raises Damaged unless an entry follows the one with a name and a time."""
    if entry.before != before or entry.time < time:
        raise Damaged(f"entry {entry.number} doesn't follow the one before")
EMPTY_LINE = b'{"ops":[{"op":"prune","before":0}]}'


class Store:
    """The keys of a log."""

    def __init__(self, members, prefix="regd/", files=None):
        self.members, self.prefix, self.context = members, prefix + FOLDER, None
        if files:
            self.context = ssl.create_default_context(cafile=f"{files}/ca.pem")
            self.context.load_cert_chain(f"{files}/cert.pem", f"{files}/key.pem")

    def call(self, path, body):
        """Returns the answer of the first member that gives one."""
        for number, member in enumerate(self.members):
            request = urllib.request.Request(member + path, data=json.dumps(body).encode())
            try:
                with urllib.request.urlopen(request, timeout=20, context=self.context) as answer:
                    return json.load(answer)
            except OSError:
                if number + 1 == len(self.members):
                    raise

    def key(self, name):
        return base64.b64encode((self.prefix + name).encode()).decode()

    def get(self, name):
        pairs = self.call("/v3/kv/range", {"key": self.key(name)}).get("kvs", [])
        return base64.b64decode(pairs[0]["value"]) if pairs else None

    def put(self, name, value):
        self.call("/v3/kv/put", {"key": self.key(name), "value": base64.b64encode(value).decode()})

    def head(self):
        """Returns the number of the last entry."""
        return self.end()[0]

    def end(self):
        """Returns the number and the name of the last entry."""
        number, _, name = (self.get("head") or b"0 0 " + ORIGIN.encode()).decode().split()
        return int(number), name

    def check_format(self):
        """Raises Damaged if the log needs a newer reader, or has an older format. There may be none."""
        text = self.get("format")
        if text is None:
            return
        needs = json.loads(text)["reader"]
        if needs > FORMAT:
            raise Damaged(f"the log needs a reader of format {needs}")

    def compact(self):
        """Lets etcd forget all values that were replaced or deleted. Does nothing if nothing was written since the last time."""
        revision = self.call("/v3/kv/range", {"key": self.key("head")})["header"]["revision"]
        try:
            self.call("/v3/kv/compaction", {"revision": revision})
        except urllib.error.HTTPError as error:
            if b"has been compacted" not in error.read():
                raise

    def skips(self):
        """Returns the lines that operators have skipped, as pairs of the number of an entry and of a line in it, from 1."""
        pairs = self.call("/v3/kv/range", {"key": self.key("skip/"), "range_end": self.key("skip0"), "keys_only": True}).get("kvs", [])
        return {tuple(map(int, base64.b64decode(pair["key"]).rsplit(b"/", 1)[1].split(b"."))) for pair in pairs}

    def entries(self):
        """Yields the entries that are in the log, without the lines that are skipped. Each has to follow the one before."""
        self.check_format()
        begin, skips, last = self.key("log/"), self.skips(), None
        while True:
            body = {"key": begin, "range_end": self.key("log0"), "limit": str(PAGE)}
            pairs = self.call("/v3/kv/range", body).get("kvs", [])
            for pair in pairs:
                number = int(base64.b64decode(pair["key"]).rsplit(b"/", 1)[1], 16)
                entry = read_entry(number, base64.b64decode(pair.get("value", "")))
                if last and last.number + 1 == number:
                    follows(entry, last.name, last.time)
                last = entry
                kept = [at for at in range(len(entry.lines)) if (number, at + 1) not in skips]
                yield entry._replace(lines=[entry.lines[at] for at in kept], sent=[entry.sent[at] for at in kept])
            if len(pairs) < PAGE:
                return
            begin = base64.b64encode(base64.b64decode(pairs[-1]["key"]) + b"\0").decode()

    def snapshot(self):
        """Returns the newest snapshot, or None."""
        text = self.get("snapshot")
        if text is None:
            return None
        head = json.loads(text)
        if head.get("Format") != FORMAT:
            raise Damaged(f"the snapshot has format {head.get('Format')}")
        chunks = [self.get(f"snapshot/{head['Entry']:016x}/{head['ID']}{number:08x}") or b"" for number in range(head["Chunks"])]
        if hashlib.sha256(b"".join(chunks)).hexdigest() != head["Hash"]:
            raise Damaged(f"the snapshot of entry {head['Entry']} doesn't have its hash")
        content = json.loads(b"".join(chunks))
        lines = [line.encode() for line in content["Lines"] or []]
        tokens = [(kept["Token"], base64.b64decode(kept["Reply"]), kept["Time"]) for kept in content["Tokens"] or []]
        return Snapshot(head["Entry"], content["Name"], content["Place"], [EMPTY_LINE] * (content["Place"] - len(lines)) + lines, tokens,
                        content.get("IsFilling", False), content.get("IsFull", False))
