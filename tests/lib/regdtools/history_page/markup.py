"""Builds HTML. Every text enters the page through `tag`, which escapes what isn't markup."""
import html
import unicodedata

# Control characters, marks of direction or of no width, surrogates, private and unassigned characters, line separators.
HIDDEN = {"Cc", "Cf", "Cs", "Cn", "Co", "Zl", "Zp"}
EMPTY_TAGS = {"meta"}


class Markup(str):
    """A text that is already HTML."""


def escape_of(character):
    return f"\\u{ord(character):04x}" if ord(character) < 0x10000 else f"\\U{ord(character):08x}"


def shown(text):
    """Returns a text with an escape for each invisible character."""
    text = str(text)
    if text.isascii() and text.isprintable():
        return text
    return "".join(escape_of(it) if unicodedata.category(it) in HIDDEN else it for it in text)


def escaped(part):
    """Returns the HTML of a part: markup unchanged, any other text escaped, nothing for None, lists item by item."""
    if part is None:
        return ""
    if isinstance(part, Markup):
        return part
    if isinstance(part, (list, tuple)):
        return "".join(escaped(it) for it in part)
    return html.escape(shown(part))


def tag(name, /, *parts, **attributes):
    """Returns an element. In an attribute's name a final `_` is dropped, any other one becomes a hyphen. None omits the attribute."""
    words = "".join(
        f' {key.rstrip("_").replace("_", "-")}="{html.escape(shown(value))}"'
        for key, value in attributes.items()
        if value is not None
    )
    if name in EMPTY_TAGS:
        return Markup(f"<{name}{words}>")
    return Markup(f"<{name}{words}>{escaped(parts)}</{name}>")


def joined(parts, between="\n"):
    return Markup(between.join(escaped(it) for it in parts))
