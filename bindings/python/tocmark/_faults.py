"""What is wrong with events, in the words of the command `tocmark-events`."""
import json
from typing import Any, Callable, Dict, Iterable, Mapping, Optional, Tuple

# A check of a value returns the nearest key and what is wanted there, or "".
_Check = Callable[[Any], str]

_PLAIN_TAGS = ("Paragraph", "HtmlBlock", "Item", "DefinitionList", "DefinitionListTitle", "DefinitionListDefinition", "TableHead",
               "TableRow", "TableCell", "Emphasis", "Strong", "Strikethrough", "Superscript", "Subscript")
_PLAIN_ENDS = (*_PLAIN_TAGS, "CodeBlock", "FootnoteDefinition", "Table", "Link", "Image")
_LINK_TYPES = ("Inline", "Reference", "ReferenceUnknown", "Collapsed", "CollapsedUnknown", "Shortcut", "ShortcutUnknown",
               "Autolink", "Email")
_NAMED = "by its name or as an object with its name as the only key"
_NUMBER = "a whole number from 0 to 18446744073709551615"


def _wanted(key: str, wish: str, is_such: Callable[[Any], bool]) -> _Check:
    return lambda value: "" if is_such(value) else f"{key}: expected {wish}"


def _text(key: str) -> _Check:
    return _wanted(key, "a string", lambda value: isinstance(value, str))


def _optional_text(key: str) -> _Check:
    return _wanted(key, "a string or null", lambda value: value is None or isinstance(value, str))


def _truth(key: str) -> _Check:
    return _wanted(key, "true or false", lambda value: isinstance(value, bool))


def _is_number(value: Any) -> bool:
    return isinstance(value, int) and not isinstance(value, bool) and 0 <= value < 2**64


def _one_of(key: str, wish: str, *names: Optional[str]) -> _Check:
    return _wanted(key, wish, lambda value: (value is None or isinstance(value, str)) and value in names)


def _each(key: str, wish: str, check: _Check) -> _Check:
    """A list of values that each pass a check."""
    def found(value: Any) -> str:
        if not isinstance(value, (list, tuple)):
            return f"{key}: expected {wish}"
        return next(filter(None, map(check, value)), "")
    return found


def _members(key: str, wish: str, members: Mapping[str, _Check]) -> _Check:
    """A dictionary with just these keys, whose values pass the checks in this order."""
    def found(value: Any) -> str:
        if not isinstance(value, dict) or set(value) != set(members):
            return f"{key}: expected {wish}"
        return next(filter(None, (check(value[name]) for name, check in members.items())), "")
    return found


def _named(key: str, wish: str, plain: tuple[str, ...], members: Mapping[str, _Check]) -> _Check:
    """A plain name, or a dictionary with one key, whose value passes that key's check."""
    def found(value: Any) -> str:
        if isinstance(value, str) and value in plain:
            return ""
        name = next(iter(value)) if isinstance(value, dict) and len(value) == 1 else None
        return members[name](value[name]) if isinstance(name, str) and name in members else f"{key}: expected {wish}"
    return found


def _attribute(value: Any) -> str:
    if not isinstance(value, (list, tuple)) or len(value) != 2:
        return "attrs: expected an array of two, a string and a string or null"
    return _text("attrs")(value[0]) or _optional_text("attrs")(value[1])


def _level(key: str) -> _Check:
    return _one_of(key, "a level, H1 to H6", *(f"H{number}" for number in range(1, 7)))


_QUOTE = _one_of("BlockQuote", "null, Note, Tip, Important, Warning or Caution", None, "Note", "Tip", "Important", "Warning", "Caution")
_METADATA = _one_of("MetadataBlock", "YamlStyle or PlusesStyle", "YamlStyle", "PlusesStyle")
_ALIGNMENTS = "an array of None, Left, Center and Right"
_WIKI_LINK = _members("WikiLink", "an object with the key has_pothole alone", {"has_pothole": _truth("has_pothole")})
_TARGET = {"link_type": _named("link_type", "a type of link, as Inline", _LINK_TYPES, {"WikiLink": _WIKI_LINK}),
           "dest_url": _text("dest_url"), "title": _text("title"), "id": _text("id")}
_LINK = "an object with the keys link_type, dest_url, title and id alone"
_TAG = _named("Start", f"a container, {_NAMED}", _PLAIN_TAGS, {
    "Heading": _members("Heading", "an object with the keys level, id, classes and attrs alone", {
        "level": _level("level"), "id": _optional_text("id"), "classes": _each("classes", "an array of strings", _text("classes")),
        "attrs": _each("attrs", "an array of attributes", _attribute)}),
    "BlockQuote": _QUOTE,
    "CodeBlock": _named("CodeBlock", "Indented, or an object with the key Fenced alone", ("Indented",), {"Fenced": _text("Fenced")}),
    "List": _wanted("List", f"null, or {_NUMBER}", lambda value: value is None or _is_number(value)),
    "FootnoteDefinition": _text("FootnoteDefinition"),
    "Table": _each("Table", _ALIGNMENTS, _one_of("Table", _ALIGNMENTS, "None", "Left", "Center", "Right")),
    "Link": _members("Link", _LINK, _TARGET),
    "Image": _members("Image", _LINK, _TARGET),
    "MetadataBlock": _METADATA})
_END = _named("End", f"a container's end, {_NAMED}", _PLAIN_ENDS, {
    "Heading": _level("Heading"), "BlockQuote": _QUOTE, "List": _truth("List"), "MetadataBlock": _METADATA})
_LEAVES = ("Text", "Code", "InlineMath", "DisplayMath", "Html", "InlineHtml", "FootnoteReference")
_EVENT = _named("event", f"an event, {_NAMED}", ("SoftBreak", "HardBreak", "Rule"), {
    "Start": _TAG, "End": _END, "TaskListMarker": _truth("TaskListMarker"), **{name: _text(name) for name in _LEAVES}})


_SHOWN = 40
_BY_LABEL = ("Reference", "Collapsed", "Shortcut")


def _shown(value: Any) -> str:
    """Returns the front of a value's JSON."""
    text = json.dumps(value, ensure_ascii=False, separators=(",", ":"), default=repr)
    return text if len(text) <= _SHOWN else f"{text[:_SHOWN]}.."


def _event(value: Any) -> str:
    said = _EVENT(value)
    return f"found {_shown(value)}, {said[len('event: '):]}" if said.startswith("event: ") else said


def _target_of(item: Any) -> Optional[Tuple[str, Tuple[str, str]]]:
    """Returns the label by which a Start leads to a definition, with the destination and the title, or `None`."""
    event = item[0] if isinstance(item, (list, tuple)) else item
    start = event.get("Start") if isinstance(event, dict) else None
    link = (start.get("Link") or start.get("Image")) if isinstance(start, dict) else None
    if not link or link["link_type"] not in _BY_LABEL:
        return None
    return link["id"], (link["dest_url"], link["title"])


def contested_label(items: Iterable[Any]) -> Optional[str]:
    """Returns the first label by which links lead to two destinations, or have two titles. `None`: there is none."""
    targets: Dict[str, Tuple[str, str]] = {}
    for label, target in filter(None, map(_target_of, items)):
        if targets.setdefault(label, target) != target:
            return label
    return None


def fault_of(item: Any) -> str:
    """Returns what is wrong with an element of a list of events, or "" if nothing is that this module knows."""
    if not isinstance(item, (list, tuple)):
        return _event(item)
    if len(item) != 2:
        return "pair: expected an array of two, an event and its range"
    event, place = item
    ends = [place.start, place.stop] if isinstance(place, range) else place if isinstance(place, (tuple, list)) else []
    if not (place is None or isinstance(place, dict) or len(ends) == 2):
        return "range: expected a range, two numbers or None"
    return _event(event) if all(map(_is_number, ends)) else f"range: expected twice {_NUMBER}"
