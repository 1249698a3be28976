"""What a text has: links, headings, words, and definitions of links, which can be changed."""
import ctypes
import json
import os
from typing import Any, Iterable, Iterator, List, NamedTuple, Optional, Tuple, Union

from . import _library
from ._calls import encoded
from ._errors import Error, error_of
from ._options import flags_of

# A field has this name below.
_Range = range


class Link(NamedTuple):
    """A link or an image, with its `range` in bytes of UTF-8.

    `text` is what the link says, or the description of the image. `kind` is its form: "Inline", "Reference", "Collapsed",
    "Shortcut", "Autolink" or "Email", "WikiLink", or one of these with "Unknown" after it. `label` is that of its definition, or
    "" if it needs none.
    """

    destination: str
    title: str
    text: str
    kind: str
    label: str
    is_image: bool
    range: _Range


class Heading(NamedTuple):
    """A heading, from level 1 to 6, with its `range` in bytes of UTF-8. `id` is that of its attributes, as `{#id}`, or `None`."""

    level: int
    text: str
    id: Optional[str]
    range: _Range


class Definition(NamedTuple):
    """A definition of links, such as `[label]: destination "title"`, with its ranges in bytes of UTF-8.

    `destination` and `title` are without escapes and references. `title_range` is empty if there is no title. `is_used` says
    whether a link or an image leads to it: of several definitions with one label, only the first counts.
    """

    label: str
    destination: str
    title: str
    range: _Range
    destination_range: _Range
    title_range: _Range
    is_used: bool


def _listed(function: Any, text: str, flags: int, guess: int) -> bytes:
    """Returns what a function lists of a text."""
    data = encoded("text", text)
    code, found = _library.answer(function, data, len(data), flags, guess=guess * len(data) + 256)
    if code < 0:
        raise error_of(code)
    return found


def _text_of(text: Union[str, "os.PathLike[str]"]) -> str:
    """Returns a text, or that of the file at a path, with its line ends."""
    if isinstance(text, os.PathLike):
        with open(text, encoding="utf-8", newline="") as file:
            return file.read()
    return text


def _range_of(place: Any) -> range:
    return range(place["start"], place["end"])


def _words_of(event: Any) -> str:
    """Returns what an event says. A break is a line feed."""
    if event in ("SoftBreak", "HardBreak"):
        return "\n"
    if isinstance(event, str):
        return ""
    return str(event.get("Text", event.get("Code", event.get("InlineMath", event.get("DisplayMath", "")))))


def _containers(found: bytes, names: Tuple[str, ...]) -> Iterator[Tuple[str, Any, str, range]]:
    """Yields the containers with these names, in the order of their Starts: name, content, text and range."""
    done: List[Any] = []
    opened: List[Tuple[int, List[str]]] = []
    for event, place in json.loads(found):
        start: Any = event.get("Start") if isinstance(event, dict) else None
        end: Any = event.get("End") if isinstance(event, dict) else None
        name = next(iter(start)) if isinstance(start, dict) else ""
        if name in names:
            opened.append((len(done), []))
            done.append((name, start[name], "", _range_of(place)))
        elif end in names or (isinstance(end, dict) and next(iter(end)) in names):
            at, words = opened.pop()
            done[at] = (*done[at][:2], "".join(words), done[at][3])
        else:
            for _, words in opened:
                words.append(_words_of(event))
    yield from done


def links(text: Union[str, "os.PathLike[str]"], *, syntax: str = "gfm", extensions: Iterable[str] = ()) -> List[Link]:
    """Returns the links and images of a Markdown text, or of the file at a `pathlib.Path`, in their order.

    >>> import tocmark
    >>> for link in tocmark.links("See [a *b*](/c) and ![d][e].\\n\\n[e]: f.png\\n"):
    ...     print(link.text, link.destination, link.kind, link.is_image, link.range)
    a b /c Inline False range(4, 15)
    d f.png Reference True range(20, 27)

    Raises what `read` does; for a path also `OSError`, or `UnicodeDecodeError` if the file isn't UTF-8.
    """
    listed = _listed(_library.links, _text_of(text), flags_of(syntax, extensions), 2)
    found = []
    for name, link, words, place in _containers(listed, ("Link", "Image")):
        kind = link["link_type"] if isinstance(link["link_type"], str) else next(iter(link["link_type"]))
        found.append(Link(link["dest_url"], link["title"], words, kind, link["id"], name == "Image", place))
    return found


def headings(text: str, *, syntax: str = "gfm", extensions: Iterable[str] = ()) -> List[Heading]:
    """Returns the headings of a Markdown text, in their order.

    >>> import tocmark
    >>> tocmark.headings("# One\\n\\nTwo `2`\\n---\\n")
    [Heading(level=1, text='One', id=None, range=range(0, 5)), Heading(level=2, text='Two 2', id=None, range=range(7, 18))]

    Raises what `read` does.
    """
    found = _containers(_listed(_library.headings, text, flags_of(syntax, extensions), 2), ("Heading",))
    return [Heading(int(heading["level"][1]), words, heading["id"], place) for _, heading, words, place in found]


def text(text: str, *, syntax: str = "gfm", extensions: Iterable[str] = ()) -> str:
    """Returns the words of a Markdown text without its markup: what texts, code and mathematics say.

    Each line and each block begins on a line of its own. Front matter and HTML say nothing.

    >>> import tocmark
    >>> tocmark.text("# One\\n\\n* a **b**\\n* `c` &amp; d\\n")
    'One\\na b\\nc & d\\n'

    Raises what `read` does.
    """
    return _listed(_library.words, text, flags_of(syntax, extensions), 1).decode()


def definitions(text: str, *, syntax: str = "gfm", extensions: Iterable[str] = ()) -> List[Definition]:
    """Returns the definitions of links of a Markdown text, in their order.

    >>> import tocmark
    >>> for it in tocmark.definitions("[a]\\n\\n[a]: /b 'c'\\n[d]: /e\\n"):
    ...     print(it.label, it.destination, it.title, it.is_used, it.destination_range)
    a /b c True range(10, 12)
    d /e  False range(22, 24)

    Raises what `read` does.
    """
    found = json.loads(_listed(_library.definitions, text, flags_of(syntax, extensions), 2))
    return [Definition(it["label"], it["destination"], it["title"], _range_of(it["range"]), _range_of(it["destination_range"]),
                       _range_of(it["title_range"]), it["used"]) for it in found]


def _redefining_error(code: int, place: Any) -> Exception:
    """Returns the exception of a code, with the number of the definition or the line of the source."""
    lines = (place.first_line, place.last_line) if place.first_line else None
    error = error_of(code, None, lines)
    if not isinstance(error, Error) or code == -5:
        return error
    if lines is not None:
        return type(error)(code, None, lines, "no text was found that has this definition and else parses as before")
    return type(error)(code, None, None, f"definition {place.event}: {error}")


def redefine(source: str, definitions: Iterable[Definition], *, syntax: str = "gfm", extensions: Iterable[str] = ()) -> str:
    """Returns a text whose definitions of links have the destinations and titles that are given. Those not given stay.

    The definitions are some of those that `definitions` returns for the source. A definition is named by its label and its range.
    Links by the label of a changed one follow, all else parses as before, and all other characters stay.

    >>> import tocmark
    >>> source = "[a]\\n\\n[a]: /b 'c'\\n[d]: /e\\n"
    >>> tocmark.redefine(source, [it._replace(destination="/new", title="") for it in tocmark.definitions(source)])
    '[a]\\n\\n[a]: /new\\n[d]: /new\\n'

    Raises `NoDefinition` if one is none of the source, `Changed` if no such text was found, and what `read` does.
    """
    data = json.dumps([{"label": it.label, "destination": it.destination, "title": it.title,
                        "range": {"start": it.range.start, "end": it.range.stop}} for it in definitions], ensure_ascii=False).encode()
    text = encoded("source", source)
    place = _library.Place(size=ctypes.sizeof(_library.Place))
    code, found = _library.answer(_library.redefine, data, len(data), text, len(text), flags_of(syntax, extensions), place,
                                  guess=2 * len(text) + 1024)
    if code < 0:
        raise _redefining_error(code, place)
    return found.decode()


def read_json(text: str, *, syntax: str = "gfm", extensions: Iterable[str] = ()) -> str:
    """Returns the events of a Markdown text as one JSON text, as `tocmark-events read` prints it. It has the pairs that `read`
    returns, but makes no object of Python for each.

    >>> import tocmark
    >>> tocmark.read_json("---\\n")
    '[["Rule",{"end":3,"start":0}]]'

    Raises what `read` does.
    """
    return read_json_bytes(text, syntax=syntax, extensions=extensions).decode()


def read_json_bytes(text: str, *, syntax: str = "gfm", extensions: Iterable[str] = ()) -> bytes:
    """Returns what `read_json` does, as the bytes of UTF-8.

    >>> import tocmark
    >>> tocmark.read_json_bytes("é")[1:24]
    b'[{"Start":"Paragraph"},'

    Raises what `read` does.
    """
    return _listed(_library.read_json, text, flags_of(syntax, extensions), 12)
