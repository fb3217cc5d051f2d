"""Describes the operations of a call and their results in a few words."""
import collections
import json
import re

from regdtools.operations import OPERATIONS

from .reading import Number

UUID = re.compile(r"[0-9a-f]{8}(-[0-9a-f]{4}){3}-[0-9a-f]{12}\Z")
ID = re.compile(r"spiffe://([^/]+)(/.+)\Z", re.DOTALL)
# a key in the wording of an operation
KEY = re.compile(r"\{(\w+)\}")
MOST_SHOWN = 2000

CODES = {
    "O1": "its id is taken",
    "O2": "another entry has the same parent, identity and selectors",
    "O3": "there is no entry of this id",
    "O4": "the entry has another revision",
    "O5": "a domain has no bundle",
    "O6": "an entry names the domain",
    "O7": "there is no such agent",
    "O8": "the state of this commit number is none of the last 64",
    "O9": "another batch committed with this token",
    "W1": "the commit number is less than the batch's `after`",
    "W2": "2^48 batches have committed already",
    "W3": "the book would have over 16,384 entries",
    "W4": "the book would have over 4,096 agents",
    "W5": "the book would have over 1,024 bundles",
    "W6": "the book would have over 65,536 tokens",
}
CAUSES = {
    "call": "an earlier record has the call's number",
    "stamps": "its reply doesn't come after its invoke, or it neither replied nor committed",
    "order": "it replied before an earlier record's call was invoked",
    "reply": "the reference implementation, run through the batches in this order, gives another reply",
}
KINDS = {
    "committed": "committed",
    "answered": "answered",
    "refused": "refused",
    "repeated": "repeated",
    "conflict": "conflict",
    "waiting": "no reply",
    "missing": "not recorded",
    "other": "other",
}


class Names:
    """Short forms of the ids and names of a run.

    The short form of an entry's id is as many last digits as make it unique; that of a SPIFFE ID is its path, if all have one trust
    domain. Tokens have no short form, since they may have the digits of an id.
    """

    def __init__(self, rows):
        words = {word for row in rows for text in texts_of(named_in(row)) for word in text.split(" ")}
        domains = {found.group(1) for word in words if (found := ID.match(word))}
        self.domain = next(iter(domains)) if len(domains) == 1 else None
        self.tails = tails_of({word for word in words if UUID.match(word)})

    def short(self, text):
        if text in self.tails:
            return f"…{self.tails[text]}"
        if (found := ID.match(text)) and found.group(1) == self.domain:
            return found.group(2)
        return text

    def mark(self, text):
        """Returns an entry of a read set with short ids and names."""
        if text.startswith("token "):
            return text
        return " ".join(self.short(word) for word in text.split(" "))


def named_in(row):
    """Returns the parts of a call that may contain names of entries."""
    reads = row.report.reads if row.report else []
    return [(row.batch() or {}).get("ops"), row.reply, [mark for mark in reads if not mark.startswith("token ")]]


def texts_of(value):
    """Yields every text in a value, without recursion."""
    left = [value]
    while left:
        it = left.pop()
        if isinstance(it, str):
            yield it
        elif isinstance(it, list):
            left.extend(it)
        elif isinstance(it, dict):
            left.extend(it.values())


def tails_of(uuids):
    """Returns for each id its shortest unique end of 4, 8, 12 or 32 digits."""
    digits, tails = {uuid: uuid.replace("-", "") for uuid in uuids}, {}
    for length in (4, 8, 12, 32):
        counts = collections.Counter(it[-length:] for it in digits.values())
        for uuid, it in digits.items():
            if counts[it[-length:]] == 1:
                tails.setdefault(uuid, it[-length:])
    return tails


def compact(value):
    """Returns the compact text of a value."""
    if isinstance(value, dict):
        return "{" + ",".join(f"{compact(key)}:{compact(it)}" for key, it in value.items()) + "}"
    if isinstance(value, list):
        return "[" + ",".join(compact(it) for it in value) + "]"
    return str(value) if isinstance(value, Number) else json.dumps(value, ensure_ascii=False)


def cut(text, most=MOST_SHOWN):
    """Returns a text; of a long one only its start and the number of omitted characters."""
    return text if len(text) <= most else f"{text[:most]} … and {len(text) - most:,} more characters"


def short_text(value, names):
    """Returns a short text of a value of an operation."""
    if isinstance(value, Number) or not isinstance(value, (str, list)):
        return cut(compact(value), 60)
    if isinstance(value, str):
        return cut(names.short(value), 120)
    return " ".join(short_text(it, names) if isinstance(it, str) else cut(compact(it), 60) for it in value)


def request_of(op, names):
    """Returns the short text of an operation, without its name."""
    wording = OPERATIONS[op["op"]].wording if op["op"] in OPERATIONS else ""
    named = KEY.findall(wording)
    others = "".join(f" {key} {short_text(it, names)}" for key, it in op.items() if key not in ("op", "match", *named))
    return KEY.sub(lambda found: others if found[1] == "others" else key_text(op, found[1], names), wording)


def key_text(op, key, names):
    """Returns the short text of the value of a key. An event may have no id and no mode."""
    if key in op:
        return short_text(op[key], names)
    return {("create", "id"): "(id drawn)", ("drop_bundle", "mode"): "restrict"}.get((op["op"], key), f"(no {key})")


def counted(value, one, many):
    return f"{len(value)} {one if len(value) == 1 else many}" if isinstance(value, list) else None


def result_of(op, reply):
    """Returns the short text of the result of an operation; None if there is nothing to add."""
    if not isinstance(reply, dict):
        return None
    if op["op"] in ("show", "show_agent", "show_bundle"):
        return found_or_none(reply)
    if op["op"] == "update" and isinstance(reply.get("entry"), dict):
        return f"revision {cut(compact(reply['entry'].get('revision')), 60)}"
    return ", ".join(listed(reply)) or None


def found_or_none(reply):
    values = [reply[key] for key in ("entry", "agent", "bundle") if key in reply]
    return None if len(values) != 1 else "none" if values[0] is None else "found"


def listed(reply):
    """Returns the counts of a reply that lists something."""
    found = [
        counted(reply.get("entries"), "entry", "entries"),
        counted(reply.get("bundles"), "bundle", "bundles"),
        counted(reply.get("pruned"), "pruned", "pruned"),
        counted(reply.get("deleted"), "deleted", "deleted"),
        counted(reply.get("dissociated"), "dissociated", "dissociated"),
        "more follow" if isinstance(reply.get("next"), str) else None,
    ]
    return [it for it in found if it]


def replies_of(row):
    """Returns the result of each operation of a batch; None for each if their numbers differ."""
    ops, replies = (row.batch() or {}).get("ops", []), row.reply.get("replies")
    return replies if isinstance(replies, list) and len(replies) == len(ops) else [None] * len(ops)


def code_of(row):
    """Returns the code of a refusal."""
    code = row.reply.get("code")
    return code if isinstance(code, str) and not isinstance(code, Number) else None


def refusal(row, names):
    """Returns the code of a refusal and its detail: the similar entry, or the domain without a bundle."""
    detail = row.reply.get("detail")
    return cut(code_of(row) or "refused", 20) + (f" {short_text(detail, names)}" if detail is not None else "")


def refused_op(row):
    """Returns the index of the refused operation."""
    op = row.reply.get("op")
    return op if row.kind == "refused" and type(op) is int else None
