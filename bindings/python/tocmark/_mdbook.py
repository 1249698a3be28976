"""Preprocessors of mdBook."""
import json
import sys
from dataclasses import dataclass
from typing import Any, Callable, Dict, Iterable, Iterator, List, Optional

from ._calls import Given, changed, read, rewrite
from .events import Change, Found

#: What mdBook reads, of that which the library reads: beside `gfm`, attributes of headings.
EXTENSIONS = ("heading-attributes",)


@dataclass(frozen=True)
class Chapter:
    """A chapter of a book, as mdBook gives it to a preprocessor."""

    #: Its Markdown.
    source: str
    #: Its file, below the book's folder of sources. A draft has none.
    path: Optional[str]
    name: str
    #: What mdBook tells of the book: `root`, `config`, `renderer` and `mdbook_version`.
    context: Dict[str, Any]


#: A change of the events of a chapter: in place, or by those that it returns.
ChapterChange = Callable[[List[Found], Chapter], Optional[Iterable[Given]]]


def chapters(book: Any) -> Iterator[Any]:
    """Yields the chapters of a book, each before those in it."""
    stack: List[Any] = list(reversed(book.get("items", book.get("sections", []))))
    while stack:
        item = stack.pop()
        if isinstance(item, dict) and "Chapter" in item:
            chapter = item["Chapter"]
            yield chapter
            stack.extend(reversed(chapter.get("sub_items", [])))


def preprocess(words: List[str], rewritten: Callable[[Chapter], str],
               begin: Callable[[List[Chapter]], None] = lambda given: None) -> int:
    """Answers mdBook, which starts a preprocessor with these arguments. Returns the status.

    `begin` gets all chapters before `rewritten` gets each. An error in a chapter is one line on standard error with the
    chapter's name. No book is written then.
    """
    if words[:1] == ["supports"]:
        return 0
    try:
        context, book = json.load(sys.stdin.buffer)
        found = list(chapters(book))
        given = [Chapter(chapter["content"], chapter.get("path"), chapter.get("name", ""), context) for chapter in found]
    except (KeyError, ValueError, TypeError, AttributeError) as error:
        print(f"tocmark: standard input isn't a book of mdBook: {error}", file=sys.stderr)
        return 1
    try:
        begin(given)
    except Exception as error:  # A filter may raise anything.
        print(f"tocmark: {error}", file=sys.stderr)
        return 1
    for chapter, one in zip(found, given):
        try:
            chapter["content"] = rewritten(one)
        except Exception as error:  # The chapter has to be named, whatever a filter raises.
            print(f"tocmark: {one.path or one.name}: {error}", file=sys.stderr)
            return 1
    sys.stdout.buffer.write(json.dumps(book, ensure_ascii=False).encode())
    sys.stdout.buffer.flush()
    return 0


def mdbook(change: Optional[Change] = None, *, chapter: Optional[ChapterChange] = None, syntax: str = "gfm",
           extensions: Iterable[str] = EXTENSIONS) -> None:
    """Is the whole program of a preprocessor of mdBook, and exits. All lines of a chapter whose events stay are kept.

    `change` changes each event of each chapter, as `edit` does:

        import tocmark

        def https(event):
            match event:
                case {"Start": {"Link": link}}:
                    link["dest_url"] = link["dest_url"].replace("http://", "https://")

        tocmark.mdbook(https)

    `chapter` takes the list of a chapter's events and a `Chapter` with its `path`, `name`, `source` and the `context` of the
    book. It changes the list in place and returns `None`, or returns other events:

        def note_path(events, chapter):
            return [*events, *tocmark.read(f"Source: {chapter.path}")]

        tocmark.mdbook(chapter=note_path)

    Raises `TypeError` unless one of `change` and `chapter` is given.
    """
    if (change is None) == (chapter is None):
        raise TypeError("mdbook takes either change or chapter")
    names = extensions if isinstance(extensions, str) else list(extensions)

    def rewritten(given: Chapter) -> str:
        events: Any = read(given.source, syntax=syntax, extensions=names)
        if change is not None:
            events = changed(events, change)
        elif chapter is not None:
            answer = chapter(events, given)
            events = events if answer is None else answer
        return rewrite(given.source, events, syntax=syntax, extensions=names)

    sys.exit(preprocess(sys.argv[1:], rewritten))
