"""The operations, for everything in Python that reads, draws or shows them: `OPERATIONS` has each with its keys in order, whether it is a
query or a change, and the words of the history page. `KINDS` has the values of a key: the grammar that accepts them, valid and invalid
ones, and the rule of a batch. The frames around operations follow.

A new operation is a line in `OPERATIONS`, with a kind in `KINDS` for each new key. From these follow the malformed lines
(regdtools.malformed), random schedules (regdtools.schedules), mixed requests for servers (regdtools.mixed_requests), long runs
(regdtools.long_runs.drawing), the random lines for a gateway (gatewaytools.requests), and the history page. A generator lists how often it
draws an operation and which values of a key, where it has reasons for that; an operation that it doesn't list is drawn as often as the
rarest ones, and a key that it doesn't list gets the valid value of its kind, or is left out if it is optional.

The rules of the gateway (gatewaytools.rules) have names and defaults of their own, so that a mistake here shows there.
"""
import dataclasses
import re
import typing

DOMAIN = "ex.org"
HOME = f"spiffe://{DOMAIN}"
SERVER = f"{HOME}/spire/server"
AGENTS = "/spire/agent/"
SHOWN = "00000000-0000-0000-0000-000000000001"

MOST_BYTES = 1_048_576
MOST_DEEP = 127
MOST_WHOLE = 2**64 - 1
MOST_OPS = 64
MOST_CALLS = 4_096


def bytes_in(text):
    return len(text.encode())


# grammars: each returns the code that refuses a value, or None


def uuid_code(value):
    if not isinstance(value, str):
        return "L5"
    hyphenated = "[0-9a-f]{8}(-[0-9a-f]{4}){3}-[0-9a-f]{12}"
    pattern = rf"[0-9a-f]{{32}}|{hyphenated}|\{{{hyphenated}\}}|urn:uuid:{hyphenated}"
    return None if re.fullmatch(pattern, value, re.I | re.A) else "U1"


def domain_code(value):
    if not isinstance(value, str):
        return "L5"
    if not value:
        return "I3"
    if bytes_in(value) > 255:
        return "I4"
    return None if re.fullmatch(r"[a-z0-9._-]+", value) else "I5"


def segment_code(segment):
    if not segment:
        return "I6"
    if segment in (".", ".."):
        return "I7"
    return None if re.fullmatch(r"[A-Za-z0-9._-]+", segment) else "I8"


def parts_of(id):
    """Returns the trust domain and the path of the text of an ID."""
    domain, slash, path = id.removeprefix("spiffe://").partition("/")
    return domain, slash + path


def id_code(value):
    if not isinstance(value, str):
        return "L5"
    if bytes_in(value) > 2_048:
        return "I1"
    if not value.startswith("spiffe://"):
        return "I2"
    domain, path = parts_of(value)
    segments = path.split("/")[1:]
    return domain_code(domain) or next(filter(None, map(segment_code, segments)), None)


def selector_code(value):
    if not isinstance(value, str):
        return "L5"
    if bytes_in(value) > 512:
        return "S1"
    kind, colon, rest = value.partition(":")
    if not colon:
        return "S2"
    if not kind:
        return "S3"
    return None if rest else "S4"


def list_of(code):
    """Returns the grammar of a list whose items have this grammar."""
    return lambda value: next(filter(None, map(code, value)), None) if isinstance(value, list) else "L5"


def of_type(kind):
    return lambda value: None if isinstance(value, kind) else "L5"


def number_code(value):
    # bool is an int in Python
    return None if type(value) is int and 0 <= value <= MOST_WHOLE else "L5"


def word_of(*words):
    return lambda value: None if isinstance(value, str) and value in words else "L5"


# rules of a batch: each returns the codes that refuse a value that its grammar accepts


def no_codes(value):
    return []


def over(length, most, code):
    return lambda value: [code] if length(value) > most else []


def distinct(value):
    return len(set(value))


def id_codes(value):
    domain, path = parts_of(value)
    return ["B3"] * (domain != DOMAIN) + ["B4"] * (not path)


def workload_codes(value):
    return id_codes(value) + ["B5"] * (value == SERVER)


def agent_codes(value):
    domain, path = parts_of(value)
    return ["B3"] * (domain != DOMAIN) + ["B10"] * (not path.startswith(AGENTS))


@dataclasses.dataclass
class Kind:
    """A kind of value: its grammar, a valid value, other valid values, invalid values by code, and the rule of a batch."""

    grammar: typing.Callable
    valid: object
    others: list = dataclasses.field(default_factory=list)
    bad: dict = dataclasses.field(default_factory=dict)
    batch_codes: typing.Callable = no_codes


UUIDS = Kind(
    uuid_code,
    SHOWN,
    ["0" * 32, f"{{{SHOWN}}}", f"urn:uuid:{SHOWN}", f"URN:uuid:{SHOWN}", "ABCDEFAB-CDEF-abcd-efab-CDEFABCDEFAB"],
    {"U1": ["", SHOWN[1:], SHOWN + "0", f"{{{'0' * 32}}}", SHOWN.replace("-", "_"), f" {SHOWN}", f"{{{SHOWN}", "g" * 32, "\u0660" * 32]},
)
IDS_REFUSED = {
    "I1": [f"{HOME}/{'x' * (2_048 - len(HOME))}", "x" * 2_049, f"{HOME}/{'é' * 1_017}"],
    "I2": ["", "/x", f"SPIFFE://{DOMAIN}/x", "spiffe:/x", "spiffe:/" + "x" * 2_040],
    "I3": ["spiffe://", "spiffe:///x"],
    "I4": ["spiffe://" + "a" * 256, "spiffe://" + "A" * 256 + "/x"],
    "I5": [f"{HOME}:80/x", "spiffe://Ex.org/x", f"{HOME}?x", "spiffe://é/x", f"{HOME} //"],
    "I6": [f"{HOME}/", f"{HOME}//x", f"{HOME}/x/", f"{HOME}/x//.."],
    "I7": [f"{HOME}/.", f"{HOME}/..", f"{HOME}/x/./y", f"{HOME}/..//x"],
    "I8": [f"{HOME}/x?y", f"{HOME}/x y", f"{HOME}/é", f"{HOME}/%2e/.."],
}
FOREIGN = [f"spiffe://b.org{AGENTS}n1", "spiffe://b.org", f"spiffe://{'a' * 255}/x", f"{HOME}.org/spire/server"]
PLACES = Kind(
    id_code,
    f"{HOME}{AGENTS}n1",
    [f"{HOME}/...", f"{HOME}/{'x' * (2_047 - len(HOME))}", f"{HOME}/a.b-c_D"],
    IDS_REFUSED | {"B3": FOREIGN, "B4": [HOME]},
    id_codes,
)
WORKLOADS = Kind(id_code, f"{HOME}/web", PLACES.others, PLACES.bad | {"B5": [SERVER]}, workload_codes)
AGENT_IDS = Kind(
    id_code,
    f"{HOME}{AGENTS}n1",
    [f"{HOME}{AGENTS}x/..."],
    IDS_REFUSED | {"B3": FOREIGN, "B10": [HOME, f"{HOME}/web", f"{HOME}/spire/agent", SERVER]},
    agent_codes,
)
DOMAINS_REFUSED = {
    "I3": [""],
    "I4": ["a" * 256, "A" * 256],
    "I5": ["B.org", "b.org/x", "spiffe://b.org", "b org", "é", "b.org\n", "\x00"],
}
BUNDLES = Kind(domain_code, "b.org", ["a" * 255, "0_.-", DOMAIN], DOMAINS_REFUSED)
PARTNERS = Kind(
    domain_code, "b.org", ["a" * 255], DOMAINS_REFUSED | {"B11": [DOMAIN]}, lambda value: ["B11"] * (value == DOMAIN)
)


def numbered(count, form="u:{}"):
    return [form.format(n) for n in range(count)]


def selectors(least, most):
    """Returns the kind of a list of `least` to `most` selectors."""
    too_few = [[]] * (least > 0)
    return Kind(
        list_of(selector_code),
        ["u:1"],
        [numbered(most), [*numbered(most), "u:0"], numbered(least), ["unix:uid:1000"], ["u:" + "é" * 255], ["u: ", "u:1"]],
        {
            "S1": [["u:" + "x" * 511], ["x" * 513], ["u:" + "é" * 255 + "x"]],
            "S2": [["unix"], [""], ["u:1", "unix", 7]],
            "S3": [[":x"], [":"]],
            "S4": [["unix:"], ["u:1", "u:"]],
            "L5": [[7, "unix"], ["u:1", None], [["u:1"]], {"0": "u:1"}],
            "B6": [*too_few, numbered(most + 1)],
        },
        lambda value: [] if least <= distinct(value) <= most else ["B6"],
    )


NAMED = Kind(
    list_of(domain_code),
    ["b.org"],
    [[], numbered(8, "b{}.org"), [*numbered(8, "b{}.org"), "b0.org"], [DOMAIN]],
    {code: [[value], ["b.org", value]] for code, [value, *_] in DOMAINS_REFUSED.items()}
    | {"L5": [[7, ""], ["b.org", {}]], "B7": [numbered(9, "b{}.org")]},
    over(distinct, 8, "B7"),
)


def texts(most, code):
    """Returns the kind of a text of at most `most` bytes."""
    return Kind(
        of_type(str),
        "x",
        ["", "x" * most, "é" * (most // 2), '"\\\n\x00\x7f'],
        {code: ["x" * (most + 1), "é" * (most // 2) + "x"]},
        over(bytes_in, most, code),
    )


def words(*several):
    return Kind(word_of(*several), several[0], [*several[1:]], {"L5": [several[0].upper(), several[0] + " ", several[0][:-1]]})


NUMBERS = Kind(number_code, 1, [0, MOST_WHOLE, 2**53 + 1])
SIZES = Kind(number_code, 1, [500], {"B9": [0, 501, MOST_WHOLE]}, lambda value: [] if 1 <= value <= 500 else ["B9"])
TRIES = Kind(lambda value: number_code(value) or (None if 1 <= value <= 16 else "L5"), 1, [16], {"L5": [0, 17, MOST_WHOLE]})
STAMPS = Kind(lambda value: None if value is None else number_code(value), 9, [None, 0, 5, 6, MOST_WHOLE])
OBJECTS = Kind(of_type(dict), None)
SHOW = {"op": "show", "id": SHOWN}
OPS = Kind(
    of_type(list),
    [SHOW],
    [[SHOW] * MOST_OPS],
    {"L5": [[SHOW, 7], [{"op": "mint"}, SHOW], [*[SHOW] * MOST_OPS, {}]], "B1": [[]], "B2": [[SHOW] * (MOST_OPS + 1)]},
)

# the kind of each key, unless an operation names another one
KINDS = {
    "id": UUIDS,
    "from": UUIDS,
    "token": UUIDS,
    "parent": PLACES,
    "identity": PLACES,
    "workload": WORKLOADS,
    "agent": AGENT_IDS,
    "domain": BUNDLES,
    "partner": PARTNERS,
    "domains": NAMED,
    "selectors": selectors(1, 16),
    "proofs": selectors(0, 64),
    "hint": texts(1_024, "B8"),
    "text": texts(65_536, "B12"),
    "mode": words("restrict", "delete", "dissociate"),
    "match": words("superset", "exact", "any", "subset"),
    "size": SIZES,
    "tries": TRIES,
    "replied": STAMPS,
    "ops": OPS,
    "batch": OBJECTS,
    "reply": OBJECTS,
    "event": words("invoke", "begin", "step", "commit", "reply"),
} | {key: NUMBERS for key in "expiry x509_svid_ttl jwt_svid_ttl revision at before after call invoked".split()}


@dataclasses.dataclass
class Key:
    """A key of an object. An optional key may be left out; a drawn one only where the program draws ids."""

    name: str
    kind: Kind
    optional: bool
    drawn: bool


def keys(text):
    """Parses keys: each is NAME, NAME? (optional) or NAME~ (drawn), with =KIND if its kind has another name."""
    found = []
    for word in text.split():
        name, _, kind = word.partition("=")
        bare = name.rstrip("?~")
        found.append(Key(bare, KINDS[kind or bare], name.endswith("?"), name.endswith("~")))
    return found


@dataclasses.dataclass
class Operation:
    """An operation: its name, its keys, whether it only reads, and what the history page says of it after its name, with keys in braces."""

    name: str
    keys: list
    is_query: bool
    wording: str


def query(name, keys_text, wording):
    return Operation(name, keys(keys_text), True, wording)


def change(name, keys_text, wording):
    return Operation(name, keys(keys_text), False, wording)


ENTRY = "parent identity=workload selectors hint? domains? expiry? x509_svid_ttl? jwt_svid_ttl?"
# {others} is replaced by each further key with its value
OPERATIONS = {operation.name: operation for operation in (
    change("create", f"id~ {ENTRY}", "{id} {identity} under {parent}, {selectors}"),
    change("update", f"id {ENTRY} revision?", "{id} {identity} under {parent}, {selectors}"),
    change("delete", "id revision?", "{id}"),
    query("show", "id", "{id}"),
    query("show_agent", "agent", "{agent}"),
    query("show_bundle", "domain", "{domain}"),
    query("children", "parent", "{parent}"),
    query("page", "size at? from? parent? identity? domain? selectors? match?", "of {size}{others}"),
    query("authorised", "agent", "{agent}"),
    query("trust", "agent", "{agent}"),
    change("prune", "before", "before {before}"),
    change("set_agent", "agent selectors=proofs", "{agent}, {selectors}"),
    change("drop_agent", "agent", "{agent}"),
    change("set_bundle", "domain=partner text", "{domain}"),
    change("drop_bundle", "domain=partner mode?", "{domain}, {mode}"),
)}
KINDS["op"] = words(*OPERATIONS)
QUERIES = [name for name, operation in OPERATIONS.items() if operation.is_query]
CHANGES = [name for name in OPERATIONS if name not in QUERIES]
# a key that is refused if another one is missing
NEEDS = {"match": "selectors"}

OP = keys("op")
REQUEST = keys("ops after? token? tries?")
BATCH = keys("ops after? token?")
EVENT = keys("event call")
INVOKE = keys("event call batch")
RECORD = keys("batch call invoked replied reply")


# ---- drawing valid operations


def agent(number):
    return f"{HOME}{AGENTS}n{number}"


def workload(number):
    return f"{HOME}/w{number}"


def partner(number):
    return f"b{number}.org"


def weighted(weights, names):
    """Returns these weights of names, in their order, and then 1 for each name that they don't list."""
    return weights | {name: 1 for name in names if name not in weights}


def drawn(name, values, is_there):
    """Returns an operation with all its required keys, and those optional ones for which `is_there(key)` is true.

    `values` has for each key a function that returns a value. The keys are drawn and stored in its order.
    """
    op, keys_of_op = {"op": name}, {key.name: key for key in OPERATIONS[name].keys}
    for key in [*filter(keys_of_op.get, values), *(key for key in keys_of_op if key not in values and not keys_of_op[key].optional)]:
        if not keys_of_op[key].optional or is_there(key):
            op[key] = values[key]() if key in values else keys_of_op[key].kind.valid
    return op
