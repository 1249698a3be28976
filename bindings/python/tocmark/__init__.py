"""Changes, formats and compares Markdown, and keeps what you don't touch.

>>> import tocmark
>>> tocmark.format("*  a\\n*  b", bullet="-")
'-  a\\n-  b\\n'

An event is what `json.loads` makes of it in the form in which pulldown-cmark 0.13 writes its events: a string or a
dictionary with one key. A document is a list of pairs of an event and its range in bytes of UTF-8, or `None`.

>>> events = tocmark.read("# Hello")
>>> events[1]
({'Text': 'Hello'}, range(2, 7))

`rewrite` changes a text and keeps all lines whose events are the same:

>>> source = "An &eacute; and a [link](/old)\\n\\n*  item\\n"
>>> events = tocmark.read(source)
>>> for node in tocmark.walk(events):
...     if node.name == "Link":
...         node.value["dest_url"] = "/new"
>>> tocmark.rewrite(source, events)
'An &eacute; and a [link](/new)\\n\\n*  item\\n'

`compare` says what two texts say differently:

>>> for difference in tocmark.compare("Hello *you*\\n", "Hello _me_\\n"):
...     print(difference)
the text "you" became "me"

`links`, `headings`, `text` and `definitions` list what a text has, and `redefine` changes its definitions of links:

>>> [link.destination for link in tocmark.links(source)]
['/old']

Calls take no lock, so several threads may call at once.
"""
from ._calls import edit, format, read, rewrite, write
from ._compare import KINDS, Difference, compare, same
from ._errors import (Changed, Error, InvalidOptions, InvalidSourceRange, InvalidStyle, NoDefinition, NotEvents, UnexpectedEvent,
                      Unrepresentable)
from ._files import format_file
from ._mdbook import Chapter, mdbook
from ._options import EXTENSIONS, SYNTAXES
from ._outline import Definition, Heading, Link, definitions, headings, links, read_json, read_json_bytes, redefine, text
from ._tree import Node, position_of, text_of, tree, walk
from .events import Event, Placed

__version__ = "0.1.0"
__all__ = [
    "EXTENSIONS", "KINDS", "SYNTAXES", "Changed", "Chapter", "Definition", "Difference", "Error", "Event", "Heading",
    "InvalidOptions", "InvalidSourceRange", "InvalidStyle", "Link", "NoDefinition", "Node", "NotEvents", "Placed",
    "UnexpectedEvent", "Unrepresentable", "compare", "definitions", "edit", "format", "format_file", "headings", "links",
    "mdbook", "position_of", "read", "read_json", "read_json_bytes", "redefine", "rewrite", "same", "text", "text_of", "tree",
    "walk", "write"]
for _error in (Changed, Error, InvalidOptions, InvalidSourceRange, InvalidStyle, NoDefinition, NotEvents, UnexpectedEvent,
               Unrepresentable):
    _error.__module__ = __name__
del _error
