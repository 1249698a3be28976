"""Reading, writing, rewriting and formatting texts."""
import ctypes
import gc
import json
import marshal
import sys
from typing import TYPE_CHECKING, Any, Callable, Iterable, Iterator, List, Optional, Sequence, Tuple, Union

from . import _library
from ._errors import Changed, NotEvents, error_of
from ._faults import contested_label, fault_of
from ._options import flags_of, flags_of_each, options_of, style_of, with_look
from .events import Change, Event, Found, Options, Placed, Style

if sys.version_info >= (3, 11):
    from typing import Unpack
elif TYPE_CHECKING:
    from typing_extensions import Unpack

#: An event alone, or with its range in bytes, two numbers or `None`.
Given = Union[Event, Tuple[Event, Union[range, Tuple[int, int], None]], Sequence[Any]]


def encoded(name: str, text: str) -> bytes:
    """Returns the UTF-8 of a text."""
    if not isinstance(text, str):
        raise TypeError(f"{name} must be a str, and not {type(text).__name__}")
    return text.encode()


def _text(code: int, text: bytes) -> str:
    """Returns the text, or raises the exception of the code."""
    if code < 0:
        raise error_of(code)
    return text.decode()


def _placed(function: Any, data: bytes, source: bytes, flags: int, options: bytes, guess: int, items: List[Any]) -> str:
    """Returns the text of a call over these events that says where an error is, or raises the exception of its code."""
    place = _library.Place(size=ctypes.sizeof(_library.Place))
    code, text = _library.answer(function, data, len(data), source, len(source), flags, options, len(options), place,
                                 guess=guess)
    if code >= 0:
        return text.decode()
    lines = (place.first_line, place.last_line) if place.first_line else None
    event = place.event if place.event <= len(data) else None
    error = error_of(code, event, lines)
    if isinstance(error, NotEvents) and event is not None and event < len(items):
        error = NotEvents(code, event, lines, cause=fault_of(items[event]) or None)
    label = contested_label(items) if isinstance(error, Changed) and function is _library.rewrite else None
    if label is not None:
        error = Changed(code, event, lines, cause="no text was found that parses to these events: links by the label "
                        f"{label} share its definition, so give them one destination and title, or make one Inline")
    raise error


def _place_of(place: Any) -> Any:
    """Returns what JSON has for a range."""
    if not isinstance(place, range):
        raise TypeError(f"JSON has no {type(place).__name__}")
    return {"start": place.start, "end": place.stop}


_ENCODER = json.JSONEncoder(ensure_ascii=False, separators=(",", ":"), check_circular=False, allow_nan=False, default=_place_of)


def with_range(item: Any) -> Any:
    """Returns an element of a list of events as a pair of the event and its `range`, or `None` if it has none."""
    if not isinstance(item, (tuple, list)):
        return item, None
    if len(item) == 2 and isinstance(item[1], (tuple, list)) and [*map(type, item[1])] == [int, int]:
        return item[0], range(*item[1])
    return item


def listed(events: Iterable[Given]) -> List[Any]:
    """Returns the list of events."""
    if isinstance(events, (str, bytes, dict)):
        raise TypeError(f"events must be a list of events, and not {type(events).__name__}")
    return list(events)


def _first_wrong(items: List[Any]) -> int:
    """Returns the number of the first event that has what JSON hasn't."""
    for at, item in enumerate(items):
        try:
            _ENCODER.encode(item)
        except (TypeError, ValueError):
            return at
    return len(items)


def _json_of(items: List[Any]) -> bytes:
    """Returns the JSON of events. If one has a range, each has one or `None`."""
    if any(isinstance(item, (tuple, list)) for item in items):
        items = [with_range(item) for item in items]
    try:
        text = _ENCODER.encode(items)
    except (TypeError, ValueError) as error:
        raise type(error)(f"event {_first_wrong(items)}: {error}") from None
    return text.encode()


def _taken_apart(items: List[Any]) -> List[Any]:
    """Returns for each event where its range begins, where that ends, and the event. Raises `TypeError` or
    `ValueError` if not all items are events, nor pairs of an event and its range or `None`."""
    values: List[Any] = []
    if set(map(type, items[:1])) <= {dict, str}:
        if not set(map(type, items)) <= {dict, str}:
            raise TypeError
        values = [None] * (3 * len(items))
        values[2::3] = items
        return values
    if not set(map(type, items)) <= {tuple, list}:
        raise TypeError
    append = values.append
    for event, place in items:
        if type(place) is range:
            append(place.start)
            append(place.stop)
        elif place is None:
            append(None)
            append(None)
        else:
            raise TypeError
        append(event)
    return values


def _dumped(items: List[Any]) -> Optional[bytes]:
    """Returns the bytes of events by `marshal.dumps`, or `None` if that knows no such values. `tocmark.h` has their form."""
    try:
        return marshal.dumps(_taken_apart(items), 2)
    except (TypeError, ValueError):
        return None


def _parsed(text: str) -> List[Found]:
    """Returns the events of a JSON text."""
    return [(event, range(place["start"], place["end"])) for event, place in json.loads(text)]


def _loaded(data: Any) -> List[Found]:
    """Returns the events of bytes for `marshal.loads`, which may have others after them. `tocmark.h` has their form."""
    _, events, starts, ends = marshal.loads(data)
    return list(zip(events, map(range, starts, ends)))


def _uncollected(make: Callable[[Any], List[Found]], data: Any) -> List[Found]:
    """Makes events. Meanwhile Python doesn't look for garbage: it would walk through them many times."""
    was_enabled = gc.isenabled()
    gc.disable()
    try:
        return make(data)
    finally:
        if was_enabled:
            gc.enable()


def _read(data: bytes, flags: int) -> List[Found]:
    """Returns the events of a text, by way of JSON if its bytes for `marshal.loads` are too long or can't be loaded."""
    size, room = _library.filled(_library.read_marshal, data, len(data), flags, guess=9 * len(data) + 4096)
    if size >= 0:
        try:
            return _uncollected(_loaded, room)
        except (EOFError, TypeError, ValueError):
            pass
    found = _text(*_library.answer(_library.read_json, data, len(data), flags, guess=12 * len(data) + 4096))
    return _uncollected(_parsed, found)


def read(text: str, *, syntax: str = "gfm", extensions: Iterable[str] = ()) -> List[Found]:
    """Returns the events of a Markdown text, each with its range in bytes of the text's UTF-8.

    `syntax` is "gfm", "commonmark" or "all". `extensions` are names of `EXTENSIONS` to add, or to remove with `no-` in front.

    >>> import tocmark
    >>> [event for event, _ in tocmark.read("~~a~~ ~b~", extensions=["no-strikethrough", "subscript"])][1:5]
    [{'Text': '~~a~~ '}, {'Start': 'Subscript'}, {'Text': 'b'}, {'End': 'Subscript'}]

    Raises `UnicodeEncodeError` if the text has half a surrogate pair, and `MemoryError`.
    """
    return _read(encoded("text", text), flags_of(syntax, extensions))


def write(events: Iterable[Given], source: str = "", *, syntax: str = "gfm", extensions: Iterable[str] = (),
          check_document: bool = True, **options: "Unpack[Options]") -> str:
    """Returns the Markdown of events, with or without ranges. The text has no line feed at its end.

    To change a text, call `rewrite`, which keeps all other lines. `write` gives all blocks one layout.

    `source` is the text that the ranges refer to; without it, they are dropped. Paragraphs, headings and the like have to parse
    back under `syntax` and `extensions`. `options` are those of the writer, such as `list_token="-"`. The whole text is parsed and
    refused unless it has just these events; texts side by side count as one. `check_document=False` skips that, which is faster,
    and also writes lists that are no document.

    >>> import tocmark
    >>> tocmark.write(["Rule"])
    '---'
    >>> tocmark.write(tocmark.read("* a\\n* b"), list_token="-")
    '- a\\n- b'
    >>> tocmark.write([{"End": "Paragraph"}])
    Traceback (most recent call last):
    tocmark.UnexpectedEvent: event 0: an event stands where it cannot

    Raises `NotEvents`, `InvalidOptions`, `UnexpectedEvent`, `Unrepresentable`, `InvalidSourceRange`, `Changed`, and `Error`
    for any other error of the library; `TypeError` if JSON has no such value; `MemoryError`. `Error.event` is the number of the
    refused block's first event, and `Error.lines` has its lines in the source.
    """
    items, over = listed(events), encoded("source", source)
    chosen, flags = options_of(options), flags_of(syntax, extensions)
    data = None if check_document else _dumped(items)
    if data is not None:
        try:
            return _placed(_library.write_marshal, data, over, flags, chosen, len(data) + 256, items)
        except NotEvents:
            pass  # JSON has more values, such as tuples and great numbers, and its error names the event.
    data = _json_of(items)
    function = _library.write_checked if check_document else _library.write_json
    return _placed(function, data, over, flags, chosen, len(data) + 256, items)


def rewrite(source: str, events: Iterable[Given], *, syntax: str = "gfm", extensions: Iterable[str] = (),
            **options: "Unpack[Options]") -> str:
    """Returns the source with its events replaced by these. All lines whose events are the same stay as they are.

    The result parses to just these events. Texts side by side count as one. The events need no ranges. `options` are those of
    the writer, and concern new blocks alone.

    >>> import tocmark
    >>> source = "*  a &eacute; [link](/old)\\n\\n|a|\\n|-|\\n"
    >>> events = tocmark.read(source)
    >>> for event, _ in events:
    ...     match event:
    ...         case {"Start": {"Link": link}}:
    ...             link["dest_url"] = "/new"
    >>> print(tocmark.rewrite(source, events), end="")
    *  a &eacute; [link](/new)
    <BLANKLINE>
    |a|
    |-|

    Raises what `write` does.
    """
    over, items = encoded("source", source), listed(events)
    data = _json_of(items)
    chosen, flags = options_of(options), flags_of(syntax, extensions)
    return _placed(_library.rewrite, data, over, flags, chosen, len(over) + 4096, items)


def end_of(tag: Any) -> Any:
    """Returns the content of the End event that closes a tag."""
    if not isinstance(tag, dict) or len(tag) != 1:
        return tag
    (name, content), = tag.items()
    if name == "Heading" and isinstance(content, dict):
        return {name: content.get("level")}
    if name in ("BlockQuote", "MetadataBlock"):
        return {name: content}
    return {name: content is not None} if name == "List" else name


def _is(event: Any, name: str) -> bool:
    return isinstance(event, dict) and name in event


def _events_in(answer: Any) -> Iterator[Any]:
    """Yields the events of what a change returned: of an event, a pair of `read`, a node, or a list of these."""
    for item in answer if isinstance(answer, list) else [answer]:
        if hasattr(item, "events"):
            yield from (event for event, _ in item.events())
        else:
            yield item[0] if isinstance(item, tuple) else item


def _note_ends(events: List[Any], ends: List[Any]) -> None:
    """Adds the Ends that close what events open, and takes away those of what they close."""
    for event in events:
        if _is(event, "Start"):
            ends.append({"End": end_of(event["Start"])})
        elif _is(event, "End") and ends:
            ends.pop()


def changed(events: Iterable[Placed], change: Change) -> List[Event]:
    """Returns the events with each one changed. An End that `change` leaves alone closes what its Start has become."""
    found: List[Event] = []
    open_ends: List[List[Any]] = []
    for event, _ in events:
        is_start, is_end = _is(event, "Start"), _is(event, "End")
        before = repr(event) if is_end else ""
        answer = change(event)
        given: List[Any] = [event] if answer is None else list(_events_in(answer))
        if is_end:
            ends = open_ends.pop() if open_ends else []
            is_alone = not isinstance(answer, list)
            given = [each for it in given
                     for each in (reversed(ends) if (is_alone or it is event) and repr(it) == before else [it])]
        found.extend(given)
        if is_start:
            ends = []
            _note_ends(given, ends)
            open_ends.append(ends)
    return found


def edit(source: str, change: Change, *, syntax: str = "gfm", extensions: Iterable[str] = (),
         **options: "Unpack[Options]") -> str:
    """Returns the source with each event changed, as `rewrite` does. `change` edits an event in place and returns `None`, or
    returns what replaces it: an event, or a list of events, pairs of `read` and nodes of `tree`; `[]` removes it. An End follows
    its Start, so you needn't change it: if a Start is removed, its End goes, too, and what is between them stays.

    >>> import tocmark
    >>> def lower(event):
    ...     match event:
    ...         case {"Start": {"Heading": heading}}:
    ...             heading["level"] = f"H{min(int(heading['level'][1]) + 1, 6)}"
    >>> tocmark.edit("a\\n=\\n\\n*  b\\n", lower)
    'a\\n-\\n\\n*  b\\n'
    >>> note = tocmark.read("**New**")
    >>> tocmark.edit("# a\\n\\nb\\n", lambda event: [event, *note] if event == {"End": {"Heading": "H1"}} else None)
    '# a\\n\\n**New**\\n\\nb\\n'
    >>> tocmark.edit("*a* b\\n", lambda event: [] if event == {"Start": "Emphasis"} else None)
    'a b\\n'

    To move or count whole blocks, change the nodes of `tree` and pass their events to `rewrite`.

    Raises what `rewrite` does.
    """
    names = extensions if isinstance(extensions, str) else list(extensions)
    events = changed(read(source, syntax=syntax, extensions=names), change)
    return rewrite(source, events, syntax=syntax, extensions=names, **options)


def format(text: str, *, syntax: str = "gfm", extensions: Iterable[str] = (), also_read: Union[str, Iterable[str]] = (),
           also: Union[str, Iterable[str]] = (), **style: "Unpack[Style]") -> str:
    """Returns a Markdown text in one style. It parses to the same events; texts side by side count as one. A block that would
    parse otherwise keeps its lines. Under the syntaxes in `also_read`, a name or several, the text has the same blocks as
    before. `also` is another name of `also_read`, and `delimiter` one of `ordered`.

    `bullet` is "*", "-" or "+", `ordered` "." or ")", `fence` "`" or "~", `emphasis` "*" or "_", and `strong` "**" or "__", or
    one of these characters; "source", the default, or "" keeps what the source has. `numbering` is "source" (the default),
    "first" or "increment", `hard_break` "source" (the default), "backslash" or "spaces", `rule` "---" (the default) or "source",
    and `heading` "#" (the default), or "source", which keeps underlined headings. A fence has at least `fence_length` characters, from 3 (the default) to 1,000. `tables` is "aligned" (the
    default), or "source", which keeps their rows. Aligned tables are padded up to `table_width` columns, from 1
    to 1,000 (the default is 120), and wider ones if they are aligned. `wrap` is "keep" (the default), "no", which joins the
    lines of a paragraph, "sentence", which gives each sentence a line, or a number of columns up to which lines are filled.
    `list_indent` is "source" (the default), "marker", which is one blank after it, or 4 columns before the content. `look` sets what isn't passed:
    "source" keeps all that the source has, and "one" makes all texts alike.

    >>> import tocmark
    >>> tocmark.format("Title\\n=====\\n*  a\\n*  b", bullet="-")
    '# Title\\n\\n-  a\\n-  b\\n'
    >>> tocmark.format("a\\n|b|\\n|-|\\n", also_read="commonmark")
    'a\\n|b|\\n|-|\\n'
    >>> tocmark.format("a", bullet="x")
    Traceback (most recent call last):
    tocmark.InvalidStyle: bullet must be one of * - + source, or empty, and not 'x'

    Raises `InvalidStyle`; `ValueError` for another name or number; `UnicodeEncodeError` as `read`; `MemoryError`.
    """
    for name in style:
        if name not in Style.__annotations__:
            raise TypeError(f"format() got an unexpected keyword argument {name!r}")
    data, others = encoded("text", text), flags_of_each(also_read, also)
    return _text(*_library.answer(_library.format_text, data, len(data), flags_of(syntax, extensions), others, len(others),
                                  style_of(**with_look(style)), guess=2 * len(data) + 256))
