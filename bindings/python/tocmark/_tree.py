"""Events as a tree, and positions in a text."""
import bisect
import re
from dataclasses import dataclass, field
from functools import lru_cache
from typing import Any, Iterable, Iterator, List, Optional, Tuple

from ._calls import Given, encoded, end_of, listed, with_range
from ._errors import UnexpectedEvent
from .events import Event, Placed

_LINE = re.compile(rb"\r\n|\n|\r")
# A field has this name below.
_Range = range


@lru_cache(maxsize=2)
def _bytes(source: str) -> bytes:
    return encoded("source", source)


@lru_cache(maxsize=2)
def _line_starts(source: str) -> List[int]:
    return [0, *(found.end() for found in _LINE.finditer(_bytes(source)))]


def text_of(source: str, place: range) -> str:
    """Returns the part of a source at a range in bytes.

    >>> import tocmark
    >>> source = "é *a*"
    >>> [tocmark.text_of(source, place) for _, place in tocmark.read(source)][1:4]
    ['é ', '*a*', 'a']

    Raises `ValueError` if the range isn't one of the source.
    """
    data = _bytes(source)
    if not 0 <= place.start <= place.stop <= len(data):
        raise ValueError(f"bytes {place.start} to {place.stop} aren't in a source of {len(data)} bytes")
    return data[place.start:place.stop].decode()


def position_of(source: str, offset: int) -> Tuple[int, int]:
    """Returns the line and the column of an offset in bytes, both counted from 1. A column counts characters of Unicode. They
    are those of `tocmark-events read --positions`.

    >>> import tocmark
    >>> tocmark.position_of("a\\né *b*", 5)
    (2, 3)

    Raises `ValueError` if the offset isn't in the source, or isn't between characters.
    """
    starts = _line_starts(source)
    if not 0 <= offset <= len(_bytes(source)):
        raise ValueError(f"byte {offset} isn't in the source")
    line = bisect.bisect_right(starts, offset)
    return line, len(_bytes(source)[starts[line - 1]:offset].decode()) + 1


@dataclass(eq=False)
class Node:
    """A container with what is in it, or a leaf.

    `event` is the Start event of a container, or the event of the leaf. It is the one of the list that the tree was made
    of, so a change of it in place changes that list. `range` counts bytes of UTF-8.
    """

    event: Event
    range: Optional[_Range] = None
    children: List["Node"] = field(default_factory=list)
    source: Optional[str] = field(default=None, repr=False)

    @property
    def is_container(self) -> bool:
        """Whether there is a Start and an End."""
        return isinstance(self.event, dict) and "Start" in self.event

    @property
    def _content(self) -> Any:
        return self.event["Start"] if self.is_container else self.event  # type: ignore[index,typeddict-item]

    @property
    def name(self) -> str:
        """The name of the container or of the leaf, such as "Heading", "Text" or "SoftBreak"."""
        return str(self._content if isinstance(self._content, str) else next(iter(self._content)))

    @property
    def value(self) -> Any:
        """What is below the name, such as the dictionary of a link or the text of a text; `None` if there is nothing."""
        return None if isinstance(self._content, str) else next(iter(self._content.values()))

    @property
    def line(self) -> Optional[int]:
        """The line on which it begins, counted from 1, if the source is known."""
        return self._position("start")[0]

    @property
    def column(self) -> Optional[int]:
        """The column at which it begins, counted from 1 in characters, if the source is known."""
        return self._position("start")[1]

    @property
    def end_line(self) -> Optional[int]:
        """The line of the place after it, if the source is known."""
        return self._position("stop")[0]

    @property
    def end_column(self) -> Optional[int]:
        """The column of the place after it, if the source is known."""
        return self._position("stop")[1]

    def _position(self, end: str) -> Tuple[Optional[int], Optional[int]]:
        if self.source is None or self.range is None:
            return None, None
        return position_of(self.source, getattr(self.range, end))

    @property
    def text(self) -> str:
        """All text in it, code and mathematics included. A break is a line feed."""
        return "".join("\n" if node.name in ("SoftBreak", "HardBreak") else node.value for node in self.walk()
                       if node.name in ("Text", "Code", "InlineMath", "DisplayMath", "SoftBreak", "HardBreak"))

    def walk(self) -> Iterator["Node"]:
        """Yields it, and all nodes in it, in the order of the document."""
        stack = [self]
        while stack:
            node = stack.pop()
            yield node
            stack.extend(reversed(node.children))

    def events(self) -> List[Placed]:
        """Returns its events with their ranges, for `rewrite` and `write`."""
        found: List[Placed] = []
        stack: List[Any] = [self]
        while stack:
            node = stack.pop()
            if not isinstance(node, Node):
                found.append(node)
                continue
            found.append((node.event, node.range))
            if node.is_container:
                stack.append(({"End": end_of(node._content)}, node.range))
                stack.extend(reversed(node.children))
        return found


def tree(events: Iterable[Given], source: Optional[str] = None) -> List[Node]:
    """Returns the blocks of events, each with what is in it. With `source`, nodes have lines and columns.

    >>> import tocmark
    >>> source = "# a*b*\\n\\ncd\\n"
    >>> heading, paragraph = tocmark.tree(tocmark.read(source), source)
    >>> heading.name, heading.value["level"], heading.text, paragraph.line
    ('Heading', 'H1', 'ab', 3)
    >>> paragraph.end_line, paragraph.end_column
    (3, 3)
    >>> heading.children.pop().name
    'Emphasis'
    >>> tocmark.rewrite(source, heading.events() + paragraph.events())
    '# a\\n\\ncd\\n'

    Raises `UnexpectedEvent` if a Start or an End is alone.
    """
    top: List[Node] = []
    open_nodes: List[Tuple[Node, int]] = []
    for number, item in enumerate(listed(events)):
        event, place = with_range(item)
        if isinstance(event, dict) and "End" in event:
            if not open_nodes:
                raise UnexpectedEvent(-10, number)
            open_nodes.pop()
            continue
        node = Node(event, place, source=source)  # type: ignore[arg-type]
        (open_nodes[-1][0].children if open_nodes else top).append(node)
        if node.is_container:
            open_nodes.append((node, number))
    if open_nodes:
        raise UnexpectedEvent(-10, open_nodes[-1][1])
    return top


def walk(events: Iterable[Given], source: Optional[str] = None) -> Iterator[Node]:
    """Yields all nodes of events, in the order of the document.

    >>> import tocmark
    >>> source = "a [b](/c)\\n\\n![d](/e)\\n"
    >>> events = tocmark.read(source)
    >>> for node in tocmark.walk(events, source):
    ...     if node.name in ("Link", "Image"):
    ...         print(f"{node.line}:{node.column}: {node.text} leads to {node.value['dest_url']}")
    1:3: b leads to /c
    3:1: d leads to /e

    Raises `UnexpectedEvent` as `tree`.
    """
    for block in tree(events, source):
        yield from block.walk()
