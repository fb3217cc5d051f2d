"""Which refusal does a line get, if any? The first one in the order of docs/LINES.md, computed from regdtools.operations alone."""
import json
import math

from regdtools import operations
from regdtools.operations import MOST_BYTES, MOST_DEEP, MOST_OPS, MOST_WHOLE


class Refused(Exception):
    """Why a line is refused: its code, and the key and the operation if the refusal names them."""

    def __init__(self, code, field=None, op=None):
        super().__init__(code)
        self.code, self.field, self.op = code, field, op

    def line(self, number):
        """Returns the line that the program prints."""
        keys = {"code": self.code, "field": self.field, "line": number, "op": self.op}
        return compact({key: value for key, value in keys.items() if value is not None})


def compact(value):
    """Returns the text of a value as the program prints it."""
    return json.dumps(value, separators=(",", ":"), sort_keys=True, ensure_ascii=False)


def whole(text):
    """Returns a number without fraction and exponent; as a float if it is outside the range of whole numbers."""
    if text.startswith("-") or len(text) > 20 or int(text) > MOST_WHOLE:
        return finite(text)
    return int(text)


def finite(text):
    number = float(text)
    if not math.isfinite(number):
        raise ValueError(text)
    return number


def no_constant(text):
    raise ValueError(text)


def depth(text):
    """Returns how deep the brackets outside of strings are nested."""
    deepest = now = 0
    inside = escaped = False
    for letter in text:
        if inside:
            inside = escaped or letter != '"'
            escaped = not escaped and letter == "\\"
        elif letter == '"':
            inside = True
        elif letter in "[{":
            now += 1
            deepest = max(deepest, now)
        elif letter in "]}":
            now -= 1
    return deepest


def check_characters(value):
    """Refuses half of a surrogate pair, which is an invalid character."""
    json.dumps(value, ensure_ascii=False).encode("utf-8")


def last_values(pairs):
    """Returns an object with the last value of each key. The values before it have to be valid too."""
    found = dict(pairs)
    if len(found) < len(pairs):
        check_characters(pairs)
    return found


def value_of(data):
    """Returns the JSON value of a line without its line feed."""
    try:
        text = data.decode("utf-8")
        if max(text.count("["), text.count("{")) > MOST_DEEP // 2 and depth(text) > MOST_DEEP:
            raise ValueError("too deep")
        value = json.loads(text, object_pairs_hook=last_values, parse_int=whole, parse_float=finite, parse_constant=no_constant)
        check_characters(value)
    except ValueError:
        raise Refused("L2") from None
    return value


def object_of(line):
    """Returns the object of a line, which ends with a line feed if it has one."""
    data = line.removesuffix(b"\n")
    if len(data) > MOST_BYTES:
        raise Refused("L1")
    if data == line:
        raise Refused("L3")
    value = value_of(data)
    if not isinstance(value, dict):
        raise Refused("L4")
    return value


def read_keys(given, keys, op=None, ids_drawn=True):
    """Checks the keys of an object in the order of their table."""
    for key in keys:
        absent = given.get(key.name) is None
        if absent and (key.optional or key.drawn and ids_drawn):
            continue
        code = "L5" if key.name not in given else key.kind.grammar(given[key.name])
        needed = operations.NEEDS.get(key.name)
        if not code and needed and given.get(needed) is None:
            code = "L5"
        if code:
            raise Refused(code, key.name, op)


def no_others(given, keys, op=None):
    """Refuses the smallest unknown key."""
    unknown = set(given) - {key.name for key in keys}
    if unknown:
        raise Refused("L5", min(unknown, key=str.encode), op)


def read_ops(batch, ids_drawn):
    """Checks the operations of a batch, one after another."""
    for index, op in enumerate(batch["ops"]):
        if not isinstance(op, dict):
            raise Refused("L5", "ops", index)
        read_keys(op, operations.OP, index)
        keys = operations.OPERATIONS[op["op"]].keys
        read_keys(op, keys, index, ids_drawn and batch.get("token") is None)
        no_others(op, operations.OP + keys, index)


def op_codes(op):
    """Returns the codes of the values of an operation that no batch may have."""
    values = [(key, op.get(key.name)) for key in operations.OPERATIONS[op["op"]].keys]
    return [code for key, value in values if value is not None for code in key.kind.batch_codes(value)]


def read_batch(batch):
    """Checks what no batch may have."""
    ops = batch["ops"]
    if not ops:
        raise Refused("B1")
    if len(ops) > MOST_OPS:
        raise Refused("B2")
    for index, op in enumerate(ops):
        if codes := op_codes(op):
            raise Refused(min(codes, key=lambda code: int(code[1:])), op=index)
    for index, op in enumerate(ops):
        if len(ops) > 1 and op["op"] == "page" and op.get("at") is not None:
            raise Refused("B13", op=index)
    if batch.get("token") is not None and all(op["op"] in operations.QUERIES for op in ops):
        raise Refused("B14")


def read_request(line):
    """Returns the object of a request line."""
    request = object_of(line)
    read_keys(request, operations.REQUEST)
    no_others(request, operations.REQUEST)
    read_ops(request, True)
    read_batch(request)
    return request


def read_within(batch, ids_drawn):
    """Checks the batch of an event or a record whose own keys are valid."""
    read_keys(batch, operations.BATCH)
    no_others(batch, operations.BATCH)
    read_ops(batch, ids_drawn)
    read_batch(batch)


def read_event(line):
    """Returns the object of an event line."""
    event = object_of(line)
    read_keys(event, operations.EVENT)
    keys = operations.INVOKE if event["event"] == "invoke" else operations.EVENT
    read_keys(event, keys)
    no_others(event, keys)
    if "batch" in event:
        read_within(event["batch"], True)
    return event


def read_record(line):
    """Returns the object of a record."""
    record = object_of(line)
    read_keys(record, operations.RECORD)
    no_others(record, operations.RECORD)
    read_within(record["batch"], False)
    return record
