"""Generates malformed lines from regdtools.operations: each key of each object gets each value that can be wrong for it."""
import dataclasses
import itertools
import json

from regdtools import operations
from regdtools.operations import MOST_BYTES, MOST_CALLS, MOST_DEEP, SHOW, SHOWN


class Raw(str):
    """A JSON text that is copied into a line unchanged."""


class Object(list):
    """An object as a list of its pairs, in this order. A key may occur twice."""


@dataclasses.dataclass
class Line:
    """The bytes of a line, and the object and the key that are wrong in it, if it is about one key."""

    text: bytes
    about: tuple | None = None


NUMBERS = [0, 7, 2**63, 2**64 - 1, -1, 1.5]
NUMBERS += map(Raw, "18446744073709551616 -0 1.0 1e2 1E0 0e0 -9223372036854775808 -9223372036854775809 100000000000000000000 1e300".split())
WRONG = [None, True, False, "", "x", [], [7], [None], ["x"], [[]], {}, {"x": 1}, *NUMBERS]
# keys that no object has; a refusal names the smallest one of a line
UNKNOWN = ["", "\x00\x1f\x7f", 'a"\\\n', "é", "\u2028", "\U0001f600", "OPS", "op ", "zz"]


def json_of(value):
    """Returns the JSON text of a value."""
    if isinstance(value, Raw):
        return value
    if isinstance(value, Object):
        return "{" + ",".join(f"{json_of(key)}:{json_of(member)}" for key, member in value) + "}"
    if isinstance(value, list):
        return "[" + ",".join(map(json_of, value)) + "]"
    return json.dumps(value, ensure_ascii=False)


def escaped(text):
    """Returns a JSON string with an escape for each letter."""
    return Raw('"' + "".join(f"\\u{ord(letter):04X}" for letter in text) + '"')


def all_bad(kind):
    return list(itertools.chain(*kind.bad.values()))


def first_bad(key):
    """Returns a value that the grammar of a key refuses."""
    return next((value for value in all_bad(key.kind) if key.kind.grammar(value)), 1.5)


def replaced(valid, name, *values):
    """Returns the object with these values for a key: none, one, or several in a row."""
    pairs = [[(key, value)] if key != name else [(key, value) for value in values] for key, value in valid]
    return Object(itertools.chain(*pairs))


def each_key(name, valid, keys):
    """Yields each key with each wrong value, without a value, and with two values."""
    for key in keys:
        about, value = (name, key.name), dict(valid)[key.name]
        for other in [*WRONG, *key.kind.others, *all_bad(key.kind)]:
            yield about, replaced(valid, key.name, other)
        yield about, replaced(valid, key.name)
        yield about, replaced(valid, key.name, value, first_bad(key))
        yield about, replaced(valid, key.name, first_bad(key), value)
        yield about, replaced(valid, key.name, value, None)


def two_keys(valid, keys):
    """Yields objects with two wrong keys, the later one first, and with each two codes that refuse a whole batch."""
    for one, other in itertools.combinations(keys, 2):
        both = replaced(replaced(valid, one.name, first_bad(one)), other.name, first_bad(other))
        yield None, Object(reversed(both))
        for bad, worse in itertools.product(refused_later(one), refused_later(other)):
            yield None, replaced(replaced(valid, one.name, bad), other.name, worse)
        for bad in refused_later(one):
            yield None, replaced(replaced(valid, one.name, bad), other.name, first_bad(other))


def refused_later(key):
    """Returns the values that the grammar of a key accepts and that no batch may have."""
    return [value for value in all_bad(key.kind) if not key.kind.grammar(value)]


def whole_object(valid, keys):
    """Yields the object with its keys in another order, with escapes, without its optional keys, and with unknown keys."""
    yield None, valid
    yield None, Object(reversed(valid))
    yield None, Object(sorted(valid))
    yield None, Object([(escaped(key), value) for key, value in valid])
    optional = {key.name for key in keys if key.optional or key.drawn}
    yield None, Object([(key, value) for key, value in valid if key not in optional])
    yield None, Object([(key, None if key in optional else value) for key, value in valid])
    strange = [(name, operations.KINDS[name].valid) for name in operations.KINDS if name not in dict(valid)]
    for further in [*strange, *((name, value) for name in UNKNOWN for value in (1, None))]:
        yield None, Object([further, *valid])
        yield None, Object([*valid, further])
    for one, other in itertools.combinations(UNKNOWN, 2):
        yield None, Object([(other, 1), *valid, (one, 1)])
        yield None, Object([*replaced(valid, keys[-1].name, first_bad(keys[-1])), (other, 1), (one, 1)])


def objects(name, valid, keys):
    """Yields what can be wrong with an object of these keys."""
    return itertools.chain(whole_object(valid, keys), each_key(name, valid, keys), two_keys(valid, keys))


def valid_op(name):
    """Returns an operation with all its keys."""
    return Object([("op", name), *((key.name, key.kind.valid) for key in operations.OPERATIONS[name].keys)])


def with_refused_later(name):
    """Yields the operation with each value that no batch may have."""
    for key in operations.OPERATIONS[name].keys:
        for value in refused_later(key):
            yield replaced(valid_op(name), key.name, value)


def lists_of_ops():
    """Yields lists of operations with one fault: the faulty operation alone, or after a valid one."""
    turn = itertools.cycle([[], [SHOW]])
    for name, operation in operations.OPERATIONS.items():
        for about, op in objects(name, valid_op(name), operations.OP + operation.keys):
            yield about, [*next(turn), op]


def batches():
    """Yields lists of operations with several faults, and lists with a token."""
    bad = [next(with_refused_later(name), valid_op(name)) for name in operations.OPERATIONS]
    for one, other in itertools.product(bad, bad):
        yield [one, other], None
    for name in operations.OPERATIONS:
        op = valid_op(name)
        yield [op, op], None
        yield [op], SHOWN
        yield [op, op], SHOWN
        yield [op, SHOW], SHOWN
        yield [replaced(op, "id")], SHOWN
        yield [replaced(op, "id", None), 7], SHOWN
        for broken in with_refused_later(name):
            yield [SHOW, broken], SHOWN


def as_batch(ops, token=None):
    return Object([("ops", ops)] + [("token", token)] * (token is not None))


class Requests:
    """Lines of `regd plain`."""

    batch_keys = operations.REQUEST
    others = {}

    def wrap(self, batch):
        return batch

    def frames(self):
        return ()

    def more(self):
        return ()


class Events:
    """Lines of `regd schedule`. Each valid invoke has a call number of its own."""

    batch_keys = operations.BATCH
    others = {word: operations.EVENT for word in operations.KINDS["event"].others} | {"invoke": operations.INVOKE}

    def __init__(self):
        self.calls = itertools.count(1_000_000)

    def wrap(self, batch):
        return Object([("event", "invoke"), ("call", next(self.calls)), ("batch", batch)])

    def frames(self):
        # before the first call
        for word, keys in self.others.items():
            valid = Object([("event", word), ("call", 7)]) if keys is operations.EVENT else self.wrap(as_batch([SHOW]))
            yield from objects(word, valid, keys)

    def more(self):
        """Yields events out of turn, and more calls than a schedule may have."""
        invoke = self.wrap(as_batch([SHOW]))
        call = dict(invoke)["call"]
        taken = [as_batch([SHOW]), as_batch([]), as_batch([7])]
        yield from [invoke, *(Object([*invoke[:2], ("batch", batch)]) for batch in taken)]
        for word in ["step", "commit", "reply", "begin", "begin", "invoke"]:
            yield Object([("event", word), ("call", call)])
        for _ in range(MOST_CALLS + 1):
            yield self.wrap(as_batch([SHOW]))
        yield from [invoke, self.wrap(as_batch([]))]


class Records:
    """Lines of `regd audit`, each the second line of its input."""

    batch_keys = operations.BATCH
    others = {"record": operations.RECORD}
    reply = {"call": 2, "place": 0, "replies": [{"entry": None}], "result": "answered"}
    first = {"batch": {"ops": [SHOW]}, "call": 1, "invoked": 5, "replied": 9, "reply": reply | {"call": 1}}

    def wrap(self, batch):
        stamps = [("call", 2), ("invoked", 6), ("replied", 9), ("reply", Object(self.reply.items()))]
        return Object([("batch", batch), *stamps])

    def frames(self):
        yield from objects("record", self.wrap(as_batch([SHOW])), operations.RECORD)

    def more(self):
        """Yields false records, with each combination of causes."""
        valid = self.wrap(as_batch([SHOW]))
        calls, invokes, replies = [1, 2], [0, 6, 9, 10], [None, 4, 5, 9, 11]
        texts = [*self.replies(), {"result": "committed"}, {"result": ["committed"]}, {}]
        for call, invoked, replied, reply in itertools.product(calls, invokes, replies, texts):
            stamps = [("call", call), ("invoked", invoked), ("replied", replied), ("reply", reply)]
            yield Object([valid[0], *stamps])
        yield self.wrap(Object([("ops", [SHOW]), ("after", 1)]))

    def replies(self):
        """Yields replies that differ from the right one, or only look as if they did."""
        pairs = [*self.reply.items()]
        yield Object(pairs)
        yield Object(reversed(pairs))
        yield Object([(escaped(key), value) for key, value in pairs])
        yield Object([("call", 7), *pairs])
        for value in [*NUMBERS, None, "0"]:
            yield Object([("place", value), *pairs])
            yield replaced(pairs, "place", value)
            yield replaced(pairs, "replies", [Object([("entry", value)])])


def all_of(frame):
    """Yields all lines for a program, each with its line feed."""
    for about, value in frame.frames():
        yield Line(json_of(value).encode() + b"\n", about)
    valid = Object([(key.name, key.kind.valid) for key in frame.batch_keys])
    for about, batch in objects("batch", replaced(valid, "token"), frame.batch_keys[:2]):
        yield Line(json_of(frame.wrap(batch)).encode() + b"\n", about)
    valid = replaced(valid, "ops", [Object([("op", "prune"), ("before", 1)])])
    for about, batch in objects("batch", valid, frame.batch_keys):
        yield Line(json_of(frame.wrap(batch)).encode() + b"\n", about)
    for about, ops in lists_of_ops():
        yield Line(json_of(frame.wrap(as_batch(ops))).encode() + b"\n", about)
    for ops, token in batches():
        yield Line(json_of(frame.wrap(as_batch(ops, token))).encode() + b"\n")
    for data in texts(json_of(frame.wrap(as_batch([SHOW])))):
        yield Line(data + b"\n")
    for value in frame.more():
        yield Line(json_of(value).encode() + b"\n")


def texts(valid):
    """Yields lines that are invalid whatever their keys are: invalid JSON, invalid UTF-8, too deep, too long."""
    yield from map(str.encode, invalid_json(valid))
    yield from invalid_utf8(valid.encode())
    yield from deep(valid)
    yield from long(valid.encode())


def invalid_json(valid):
    """Yields texts of which most are invalid JSON. The others are no objects, or equal the valid line."""
    yield from ["", " ", "\t", "\r", "\x00", "\ufeff", "\u00a0", "nul", "Null", "NaN", "Infinity", "-Infinity", "'x'", '"', "{", "}"]
    yield from ["null", "true", "7", '"x"', "[]", f"[{valid}]", "-", "01", "+1", "1.", ".5", "0x1", "1e", "1e400", "-1e400", "9" * 400]
    yield from [valid + "\r", "\t \r" + valid + " \t", valid.replace(":", " :\r "), "\ufeff" + valid, "\u00a0" + valid, "\x0c" + valid]
    yield from [valid[:-1] + ",}", valid[:-1] + ",,}", valid + ",", valid + valid, valid + "x", valid + "\x00", valid.replace('"', "'")]
    yield from [valid.replace(":", "="), valid.replace(",", ";"), valid.replace("[", "[,", 1), valid[1:], valid[:-1], valid.replace('"', "", 1)]
    for text in ["\\ud800", "\\udc00", "\\ud800\\ud800", "\\udc00\\ud800", "\\ud83d\\ude00", "\\u12", "\\x41", "\\", "\x1f", "\x00", "\x7f", "\t"]:
        yield valid.replace("show", text)
        yield valid[:-1] + f',"{text}":1}}'
        yield f'{{"ops":["{text}"],{valid[1:]}'
    for number in ["1e400", "9" * 400, "-", "01", "1e", "--1", "1_0", "\u0661"]:
        yield valid[:-1] + f',"zz":{number}}}'


def invalid_utf8(valid):
    """Yields invalid UTF-8 inside a string, inside a key, and outside of both; and some valid UTF-8."""
    wrong = [b"\xff", b"\xfe\xff", b"\x80", b"\xc0\x80", b"\xc3", b"\xe0\x80\x80", b"\xed\xa0\x80", b"\xe2\x82", b"\xf0\x80\x80\x80", b"\xf4\x90\x80\x80", b"\xf8\x88\x80\x80\x80"]
    for data in [*wrong, "é€😀\U0010ffff".encode()]:
        yield from [data, valid + data, valid.replace(b"show", b"sh" + data), valid[:-1] + b',"z' + data + b'":1}']
    yield valid.decode().encode("utf-16-le")


def deep(valid):
    """Yields nested lists and objects, as deep as is valid and one level more."""
    for open, close in [("[", "]"), ('{"zz":', "}"), ('[{"zz":', "}]")]:
        for more in (0, 1):
            count = MOST_DEEP // (1 + (len(open) > 7)) + more
            yield (open * count + "1" * (open != "[") + close * count).encode()
            yield (valid[:-1] + ',"zz":' + open * (count - 1) + "1" + close * (count - 1) + "}").encode()
    yield ("[" * 100_000).encode()


def long(valid):
    """Yields lines of the maximum length, of one byte more, and of much more."""
    room = MOST_BYTES - len(valid)
    for more in (0, 1):
        yield valid + b" " * (room + more)
        yield b" " * (room + more) + valid
        yield valid + b" " * (room - 1 + more) + b"\r"
        yield b" " * (MOST_BYTES + more)
        yield valid.replace(b"show", b"x" * (room + 4 + more))
        yield b"\xff" * (MOST_BYTES + more)
    yield valid + b" " * (3 * MOST_BYTES)


def endings(frame):
    """Yields inputs without a final line feed: each prefix of a valid line, and lines at the limits."""
    valid = json_of(frame.wrap(as_batch([SHOW]))).encode()
    yield from (valid[:length] for length in range(1, len(valid) + 1))
    yield from [b"\xff", b" " * MOST_BYTES, b" " * (MOST_BYTES + 1), valid + b" " * (2 * MOST_BYTES)]
