"""Writes request lines in unusual spellings, and damages them."""
import json

from regdtools import operations

WRONG = [None, 7, -1, 1.5, "", "x", [], {}, True, 1 << 64, "spiffe://other.org/x", ["u"], "\u00e9", "a" * 600]
# what damages a line where it is inserted
INSERTED = [b"\\", b'"', b"}", b"{", b",", b"1e400", b"\\ud800", b"[" * 130, b"null", b'"op":"prune"', b"\xef\xbb\xbf"]


class Spelling:
    """Texts of batches, from the random numbers of `random`. `tokens` has the tokens that lines share."""

    def __init__(self, random):
        self.random = random
        self.tokens = [f"00000000-0000-4000-9000-{n:012x}" for n in range(40)]

    def spell(self, batch):
        """Returns a text of the batch: keys in any order, with spaces, escapes, repeated keys and other forms of UUIDs."""
        random = self.random

        def member(key, value):
            return text(key) + random.choice([":", ":", ": ", " :\t"]) + spelled(value, key)

        def text(value):
            made = json.dumps(value, ensure_ascii=random.random() < 0.5)
            if len(made) > 2 and random.random() < 0.02:
                at = random.randrange(1, len(made) - 1)
                if made[at].isalnum() and "\\" not in made:
                    made = made[:at] + f"\\u{ord(made[at]):04x}" + made[at + 1 :]
            return made

        def spelled(value, key=""):
            if isinstance(value, dict):
                pairs = list(value.items())
                if random.random() < 0.3:
                    random.shuffle(pairs)
                members = [member(key, inner) for key, inner in pairs]
                if pairs and random.random() < 0.02:
                    key = random.choice(pairs)[0]
                    members.insert(0, member(key, random.choice(WRONG)))
                return "{" + random.choice([",", ",", " , "]).join(members) + random.choice(["", "", " "]) + "}"
            if isinstance(value, list):
                return "[" + ",".join(spelled(inner) for inner in value) + "]"
            if isinstance(value, str):
                if key in ("id", "from", "token") and len(value) == 36 and random.random() < 0.1:
                    value = random.choice([value.upper(), value.replace("-", ""), "{%s}" % value, f"urn:uuid:{value}", f"URN:UUID:{value}"])
                return text(value)
            return json.dumps(value)

        before = random.choice(["", "", "", " "]).encode()
        return before + spelled(batch).encode("utf-8", "surrogatepass") + random.choice([b"", b"", b"", b" ", b"\r"])

    def damaged(self, text):
        """Returns the text with bytes changed, dropped or added."""
        random, made = self.random, bytearray(text)
        for _ in range(random.choice([1, 1, 2, 5])):
            at = random.randrange(len(made) + 1)
            kind = random.randrange(5)
            if kind == 0 and at < len(made):
                made[at] = random.choice(b'\\"{}[],:0 xu\x00\xff\xc3e-.')
            elif kind == 1 and at < len(made):
                del made[at]
            elif kind == 2:
                made[at:at] = random.choice(INSERTED)
            elif kind == 3:
                del made[at:]
            else:
                made[at:at] = made[random.randrange(len(made) + 1) :][:20]
        return bytes(made).replace(b"\n", b" ")

    def long_line(self):
        """Returns a line about as long as a line may be."""
        token = {"token": self.random.choice(self.tokens)} if self.random.random() < 0.5 else {}
        made = self.spell({"ops": [{"op": "prune", "before": 0}], **token})
        size = operations.MOST_BYTES + self.random.choice([-70, -65, -64, -63, -40, 0, 1, 100])
        return made + b" " * (size - len(made))
