"""Types of events, for type checkers. An event is a string or a dictionary with one key, as docs/JSON.md has them."""
from typing import Callable, Dict, List, Literal, Optional, Protocol, Sequence, Tuple, TypedDict, Union

Level = Literal["H1", "H2", "H3", "H4", "H5", "H6"]
Alignment = Literal["None", "Left", "Center", "Right"]
QuoteKind = Optional[Literal["Note", "Tip", "Important", "Warning", "Caution"]]
MetadataKind = Literal["YamlStyle", "PlusesStyle"]
PlainTag = Literal[
    "Paragraph", "HtmlBlock", "Item", "DefinitionList", "DefinitionListTitle", "DefinitionListDefinition", "TableHead",
    "TableRow", "TableCell", "Emphasis", "Strong", "Strikethrough", "Superscript", "Subscript"]


class WikiLink(TypedDict):
    """The type of `[[target]]`."""

    WikiLink: Dict[Literal["has_pothole"], bool]


LinkType = Union[
    Literal["Inline", "Reference", "ReferenceUnknown", "Collapsed", "CollapsedUnknown", "Shortcut", "ShortcutUnknown",
            "Autolink", "Email"], WikiLink]


class HeadingContent(TypedDict):
    """What a heading has."""

    level: Level
    id: Optional[str]
    classes: List[str]
    attrs: List[List[Optional[str]]]


class LinkContent(TypedDict):
    """What a link or an image has."""

    link_type: LinkType
    dest_url: str
    title: str
    id: str


# The tags of containers, each a dictionary with one key.
Heading = TypedDict("Heading", {"Heading": HeadingContent})
BlockQuote = TypedDict("BlockQuote", {"BlockQuote": QuoteKind})
Fenced = TypedDict("Fenced", {"Fenced": str})
CodeBlock = TypedDict("CodeBlock", {"CodeBlock": Union[Literal["Indented"], Fenced]})
ListTag = TypedDict("ListTag", {"List": Optional[int]})
FootnoteDefinition = TypedDict("FootnoteDefinition", {"FootnoteDefinition": str})
Table = TypedDict("Table", {"Table": List[Alignment]})
Link = TypedDict("Link", {"Link": LinkContent})
Image = TypedDict("Image", {"Image": LinkContent})
MetadataBlock = TypedDict("MetadataBlock", {"MetadataBlock": MetadataKind})
Tag = Union[PlainTag, Heading, BlockQuote, CodeBlock, ListTag, FootnoteDefinition, Table, Link, Image, MetadataBlock]

HeadingEnd = TypedDict("HeadingEnd", {"Heading": Level})
ListEnd = TypedDict("ListEnd", {"List": bool})
TagEnd = Union[
    PlainTag, Literal["CodeBlock", "FootnoteDefinition", "Table", "Link", "Image"], HeadingEnd, BlockQuote, ListEnd,
    MetadataBlock]

Start = TypedDict("Start", {"Start": Tag})
End = TypedDict("End", {"End": TagEnd})
Text = TypedDict("Text", {"Text": str})
Code = TypedDict("Code", {"Code": str})
InlineMath = TypedDict("InlineMath", {"InlineMath": str})
DisplayMath = TypedDict("DisplayMath", {"DisplayMath": str})
Html = TypedDict("Html", {"Html": str})
InlineHtml = TypedDict("InlineHtml", {"InlineHtml": str})
FootnoteReference = TypedDict("FootnoteReference", {"FootnoteReference": str})
TaskListMarker = TypedDict("TaskListMarker", {"TaskListMarker": bool})

Event = Union[
    Literal["SoftBreak", "HardBreak", "Rule"], Start, End, Text, Code, InlineMath, DisplayMath, Html, InlineHtml,
    FootnoteReference, TaskListMarker]
#: An event with its range in bytes of UTF-8, if it has one.
Placed = Tuple[Event, Optional[range]]
#: An event that was read, with its range in bytes of UTF-8.
Found = Tuple[Event, range]


class HasEvents(Protocol):
    """What has events, such as a `Node`."""

    def events(self) -> List[Placed]:
        """Returns its events."""


#: A change of an event: in place, or by the event or the list of events that it returns.
Change = Callable[[Event], Union[Event, HasEvents, Sequence[Union[Event, Placed, HasEvents]], None]]


class Options(TypedDict, total=False):
    """The options of the writer. docs/JSON.md has their defaults."""

    newlines_after_headline: int
    newlines_after_paragraph: int
    newlines_after_codeblock: int
    newlines_after_htmlblock: int
    newlines_after_table: int
    newlines_after_rule: int
    newlines_after_list: int
    newlines_after_blockquote: int
    newlines_after_metadata: int
    newlines_after_rest: int
    code_block_token_count: int
    code_block_token: Literal["`", "~"]
    list_token: Literal["*", "-", "+"]
    ordered_list_token: Literal[".", ")"]
    increment_ordered_list_bullets: bool
    emphasis_token: Literal["*", "_"]
    strong_token: Literal["**", "__"]
    use_html_for_super_sub_script: bool
    check_plain_blocks: bool


class Style(TypedDict, total=False):
    """The style of a formatted text."""

    look: Literal["", "source", "one"]
    bullet: Literal["", "source", "*", "-", "+"]
    ordered: Literal["", "source", ".", ")"]
    delimiter: Literal["", "source", ".", ")"]
    numbering: Literal["source", "first", "increment"]
    emphasis: Literal["", "source", "*", "_"]
    strong: Literal["", "source", "*", "_", "**", "__"]
    fence: Literal["", "source", "`", "~"]
    fence_length: int
    hard_break: Literal["source", "backslash", "spaces"]
    rule: Literal["---", "source"]
    heading: Literal["#", "source"]
    tables: Literal["aligned", "source"]
    table_width: int
    wrap: int | Literal["keep", "no", "sentence"]
    list_indent: Literal["source", "marker", 4]
