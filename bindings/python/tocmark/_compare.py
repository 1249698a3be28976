"""What two texts say differently."""
import json
from typing import Any, Iterable, List, Mapping, NamedTuple, Tuple

from . import _library
from ._calls import encoded
from ._errors import error_of
from ._options import flags_of

#: The kinds of things that can be allowed to differ, by their names, with the bit of each.
KINDS: Mapping[str, int] = {
    "wrap": 1 << 0, "text": 1 << 1, "destinations": 1 << 2, "titles": 1 << 3, "labels": 1 << 4, "fences": 1 << 5,
    "levels": 1 << 6, "numbers": 1 << 7, "code": 1 << 8, "info": 1 << 9, "html": 1 << 10, "front-matter": 1 << 11,
    "definitions": 1 << 12,
}

#: The bit that makes links of bare web and mail addresses.
_BARE_LINKS = 1 << 13

#: What no page shows.
_UNRENDERED = KINDS["labels"] | KINDS["fences"] | KINDS["definitions"]


class Difference(NamedTuple):
    """A thing that two texts say differently. `str` makes one phrase of it, `message`.

    `kind` is "text", "destination", "title", "label", "level", "number", "code", "info", "html", "front-matter", "definition",
    "removed" (only the old text has it), "added" (only the new text has it) or "structure". `what` is in words what differs.
    `old` and `new` are its first and its last line in each text, counted from 1. `was` and `is_` are what each text says, as far
    as it differs.
    """

    kind: str
    what: str
    old: Tuple[int, int]
    new: Tuple[int, int]
    was: str
    is_: str
    message: str

    def __str__(self) -> str:
        return self.message


def _allowed(allow: Iterable[str], exact: bool, syntax: str) -> int:
    """Returns the bits of what may differ, and that of bare addresses, which a page shows as links unless it is CommonMark."""
    if isinstance(allow, str):
        raise TypeError(f"allow must be a list of kinds, and not the str {allow!r}")
    bits = 0 if exact else _UNRENDERED
    for kind in allow:
        if kind not in KINDS:
            raise ValueError(f"{kind!r} is none of {', '.join(KINDS)}")
        bits |= KINDS[kind]
    return bits if exact or syntax == "commonmark" else bits | _BARE_LINKS


def _difference(found: Any) -> Difference:
    """Returns the difference of its JSON."""
    return Difference(found["kind"], found["what"], (found["old"][0], found["old"][1]), (found["new"][0], found["new"][1]),
                      found["was"], found["is"], found["message"])


def compare(old: str, new: str, *, allow: Iterable[str] = (), exact: bool = False, syntax: str = "gfm",
            extensions: Iterable[str] = ()) -> List[Difference]:
    """Returns what two Markdown texts say differently. The list is empty exactly if both parse to the same events and define
    the same links, but for what may differ. Texts side by side count as one.

    What no page shows may differ: how links are spelled and defined, whether code is fenced or indented, and whether code or
    HTML lacks its last line feed. A web or mail address in a text is a link, as GitHub shows it, unless `syntax` is "commonmark". With `exact`, what no page shows may not
    differ, and such an address is text. `allow` names further kinds that may differ, of `KINDS`, such as "wrap", white space in
    texts and where lines break.

    >>> import tocmark
    >>> tocmark.compare("*  a\\n*  [b](/c)\\n", "* a\\n* [b][]\\n\\n[b]: /c\\n")
    []
    >>> difference, = tocmark.compare("A [link](/old).\\n", "A [link](/new).\\n")
    >>> print(difference)
    the link's destination "/old" became "/new"
    >>> difference.kind, difference.new
    ('destination', (1, 1))
    >>> tocmark.compare("a b\\n", "a\\nb\\n", allow=["wrap"])
    []
    >>> tocmark.compare("see http://a.b/c", "see <http://a.b/c>")
    []
    >>> tocmark.compare("a", "b", allow=["words"])
    Traceback (most recent call last):
    ValueError: 'words' is none of wrap, text, destinations, titles, labels, fences, levels, numbers, code, info, html, \
front-matter, definitions

    Raises `ValueError` for a wrong kind; `UnicodeEncodeError` as `read`; `MemoryError`.
    """
    before, after = encoded("old", old), encoded("new", new)
    code, text = _library.answer(_library.compare, before, len(before), after, len(after), flags_of(syntax, extensions),
                                 _allowed(allow, exact, syntax), guess=4096)
    if code < 0:
        raise error_of(code)
    return [_difference(found) for found in json.loads(text)]


def same(old: str, new: str, *, allow: Iterable[str] = (), exact: bool = False, syntax: str = "gfm",
         extensions: Iterable[str] = ()) -> bool:
    """Returns whether two Markdown texts say the same: whether `compare` finds nothing. The arguments are those of `compare`.

    >>> import tocmark
    >>> tocmark.same("Title\\n=====\\n", "# Title\\n")
    True
    >>> tocmark.same("[a](/b)", "[a][]\\n\\n[a]: /b", exact=True)
    False
    >>> tocmark.same("see http://a.b/c", "see <http://a.b/c>", exact=True)
    False
    """
    return not compare(old, new, allow=allow, exact=exact, syntax=syntax, extensions=extensions)
