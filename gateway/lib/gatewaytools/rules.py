"""The rules of the gateway, written again in Python: how regd compares operations, and which lines the gateway refuses.

The tests compare the gateway with them, so they share no code with it. Nor do they share the table of regdtools.operations, from which the
random lines are drawn: checker_tests compares the names.
"""
import json
import uuid

CHANGES = {"create", "update", "delete", "prune", "set_agent", "drop_agent", "set_bundle", "drop_bundle"}
QUERIES = {"show", "show_agent", "show_bundle", "children", "page", "authorised", "trust"}
MOST_QUERIES = 4
LISTINGS = (b'"page"', b'"children"', b'"authorised"', b'"trust"')
MOST_LISTINGS = 16
MOST_OPS = 64
MOST_BYTES = 1 << 20
# for how many milliseconds tokens are retained, and how many bytes they may take, if an entry doesn't say it
TOKEN_TIME, TOKEN_ROOM = 300_000, 1 << 30
# about what a token takes in addition to its reply; how many entries are between two counts of the bytes
TOKEN_OWN_BYTES, COUNT_INTERVAL = 256, 16
ID_BYTES, TOKEN_BYTES = 44, 64
DEFAULTS = {"hint": "", "expiry": 0, "x509_svid_ttl": 0, "jwt_svid_ttl": 0, "domains": [], "mode": "restrict", "match": "superset"}


def _refuse(word):
    raise ValueError(word)


def parsed(line):
    """Returns the JSON value of a line, or None."""
    try:
        return json.loads(line.decode("utf-8", "replace"), parse_constant=_refuse)
    except (ValueError, RecursionError):
        return None


def batch_of(line):
    """Returns the object of a line if it has a list of 1 to 64 objects as `ops`, otherwise None."""
    value = parsed(line)
    ops = value.get("ops") if isinstance(value, dict) else None
    if isinstance(ops, list) and 1 <= len(ops) <= MOST_OPS and all(isinstance(op, dict) for op in ops):
        return value
    return None


def name_of(op):
    return op.get("op") if isinstance(op.get("op"), str) else ""


def has_token(batch):
    return batch.get("token") is not None


def creates_without_id(batch):
    """Returns how many creates get an id from the gateway."""
    return 0 if has_token(batch) else sum(name_of(op) == "create" and op.get("id") is None for op in batch["ops"])


def own_code(line):
    """Returns the code with which the gateway refuses an operator's line, or None."""
    if len(line) > MOST_BYTES:
        return None
    # a query is never too long: nothing that it needs is added to it. Its listings are counted without a reader of JSON
    if b"\\" not in line and not any(b'"%s"' % name.encode() in line for name in CHANGES):
        return "G2" if sum(line.count(name) for name in LISTINGS) > MOST_LISTINGS else None
    batch = batch_of(line)
    if batch is None:
        return None
    if sum(name_of(op) in QUERIES for op in batch["ops"]) > MOST_QUERIES:
        return "G2"
    room = creates_without_id(batch) * ID_BYTES + (TOKEN_BYTES if has_token(batch) else 0)
    return "G3" if room and len(line) + room > MOST_BYTES else None


def read_uuid(text):
    """Returns the 32 digits of a UUID in one of regd's forms, or None."""
    low = text.lower()
    if len(low) == 38 and low[0] + low[-1] == "{}":
        low = low[1:-1]
    elif len(low) == 45 and low.startswith("urn:uuid:"):
        low = low[9:]
    elif len(low) == 32 and "-" not in low:
        low = f"{low[:8]}-{low[8:12]}-{low[12:16]}-{low[16:20]}-{low[20:]}"
    try:
        return uuid.UUID(low).hex if str(uuid.UUID(low)) == low else None
    except ValueError:
        return None


def token_of(line):
    """Returns the digits of a line's token if the line is a change that can have one, otherwise None."""
    if b'"token"' not in line and b"\\" not in line:
        return None
    batch = batch_of(line)
    if batch is None or not isinstance(batch.get("token"), str):
        return None
    after = batch.get("after")
    is_number = after is None or isinstance(after, int) and not isinstance(after, bool) and 0 <= after < 1 << 64
    names = [name_of(op) for op in batch["ops"]]
    has_ids = all(op.get("id") is not None for op, name in zip(batch["ops"], names) if name == "create")
    return read_uuid(batch["token"]) if is_number and has_ids and CHANGES & {*names} else None


def operations(line):
    """Returns the operations of a line as regd compares them."""
    plain = []
    for op in batch_of(line)["ops"]:
        kept = {}
        for key, value in op.items():
            if isinstance(value, list):
                value = sorted({json.dumps(item) for item in value})
            if key in ("id", "from") and isinstance(value, str):
                value = read_uuid(value) or value
            if value is not None and not (key in DEFAULTS and value == DEFAULTS[key] and type(value) is type(DEFAULTS[key])):
                kept[key] = value
        plain.append(kept)
    return plain


def with_member(line, member):
    """Returns the line with one more member at the end of its object."""
    stripped = line.rstrip(b" \t\r")
    return stripped[:-1] + b"," + member + b"}"
