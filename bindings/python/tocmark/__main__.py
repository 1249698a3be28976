"""`python -m tocmark`: formats files, and gives filters their events."""
import argparse
import json
import os
import subprocess
import sys
from typing import Any, Dict, Iterator, List, NoReturn, Optional

from . import Error, __version__, _mdbook, read, rewrite, write
from ._files import read_file, replace_file
from ._options import EXTENSIONS, SYNTAXES
from ._program import program

#: Linux starts no program with a variable of 131,072 bytes, its name and the byte after it among them.
LONGEST_TOLD = 131_072 - len("TOCMARK_MDBOOK=") - 1


def _syntax_of(words: argparse.Namespace) -> Any:
    return {"syntax": words.syntax, "extensions": words.extension}


def _read_input() -> str:
    return sys.stdin.buffer.read().decode()


def _print(text: str) -> None:
    sys.stdout.buffer.write(text.encode())
    sys.stdout.buffer.flush()


def _json_of(text: str, words: argparse.Namespace) -> str:
    pairs = read(text, **_syntax_of(words))
    return json.dumps([[event, None if place is None else {"start": place.start, "end": place.stop}] for event, place in pairs],
                      ensure_ascii=False)


def _format(arguments: List[str]) -> NoReturn:
    """Becomes tocmark-format."""
    place = program()
    os.execv(place, ["tocmark-format", *arguments])


def _read(words: argparse.Namespace) -> int:
    _print(_json_of(read_file(words.file) if words.file else _read_input(), words) + "\n")
    return 0


def _write(words: argparse.Namespace) -> int:
    source = read_file(words.source) if words.source else ""
    _print(write(json.loads(_read_input()), source, check_document=not words.unchecked, **_syntax_of(words)) + "\n")
    return 0


def _rewrite(words: argparse.Namespace) -> int:
    source = read_file(words.source)
    text = rewrite(source, json.loads(_read_input()), **_syntax_of(words))
    if not words.in_place:
        _print(text)
    elif text != source:
        replace_file(words.source, source, text)
    return 0


class _Filter:
    """A command that changes the events of chapters: it starts for each of them, or once for all."""

    def __init__(self, words: argparse.Namespace) -> None:
        self._words = words
        #: What the command wrote for each chapter, in their order, if it starts once.
        self._lines: Iterator[bytes] = iter(())
        self._told: Dict[str, str] = {}

    def begin(self, chapters: List[_mdbook.Chapter]) -> None:
        """Makes what the command is told of the book. If the command starts once, it runs now."""
        told = json.dumps(chapters[0].context) if chapters else ""
        if len(told) <= LONGEST_TOLD:
            self._told = {"TOCMARK_MDBOOK": told}
        else:
            print("tocmark: warning: TOCMARK_MDBOOK isn't set, because the book's context is too long for it", file=sys.stderr)
        if self._words.once and chapters:
            lines = self._run("".join(map(self._line_of, chapters)), {}).splitlines()
            if len(lines) != len(chapters):
                raise ValueError(f"the command has to write a line for each chapter: it wrote {len(lines)} for {len(chapters)}")
            self._lines = iter(lines)

    def _line_of(self, chapter: _mdbook.Chapter) -> str:
        events = _json_of(chapter.source, self._words)
        return f'{{"file":{json.dumps(chapter.path)},"name":{json.dumps(chapter.name)},"events":{events}}}\n'

    def rewritten(self, chapter: _mdbook.Chapter) -> str:
        """Returns the text of a chapter whose events the command has changed."""
        if self._words.once:
            answer = next(self._lines)
        else:
            answer = self._run(_json_of(chapter.source, self._words), {"TOCMARK_FILE": chapter.path or ""})
        return rewrite(chapter.source, json.loads(answer), **_syntax_of(self._words))

    def _run(self, given: str, names: Dict[str, str]) -> bytes:
        environment = {name: value for name, value in os.environ.items() if name not in ("TOCMARK_FILE", "TOCMARK_MDBOOK")}
        return subprocess.run(self._words.command, input=given.encode(), stdout=subprocess.PIPE, check=True,
                              env={**environment, **self._told, **names}).stdout


def _mdbook_by_command(words: argparse.Namespace) -> int:
    asked = words.command[-2:] if words.command[-2:-1] == ["supports"] else []
    by_command = _Filter(words)
    return _mdbook.preprocess(asked, by_command.rewritten, by_command.begin)


def _add_syntax(parser: argparse.ArgumentParser, *extensions: str) -> None:
    parser.add_argument("--syntax", choices=list(SYNTAXES), default="gfm", help="kind of Markdown (default: gfm)")
    parser.add_argument("--extension", action="append", default=list(extensions), metavar="NAME",
                        help=f"add an extension, or remove it by no-NAME; repeatable: {', '.join(EXTENSIONS)}")


def _parser() -> argparse.ArgumentParser:
    parser = argparse.ArgumentParser(prog="python -m tocmark", description="Format Markdown, and change its events.")
    parser.add_argument("--version", action="version", version=f"tocmark {__version__}")
    commands = parser.add_subparsers(required=True, metavar="COMMAND")

    commands.add_parser("format", help="format files and folders: the program tocmark-format, with its arguments")

    one = commands.add_parser("read", help="print the events of a file or of standard input as JSON")
    one.add_argument("file", nargs="?", metavar="FILE")
    one.set_defaults(run=_read)

    one = commands.add_parser("write", help="print the Markdown of events on standard input")
    one.add_argument("--source", metavar="FILE", help="text that the ranges refer to")
    one.add_argument("--unchecked", action="store_true", help="also write a text that has other events")
    one.set_defaults(run=_write)

    one = commands.add_parser("rewrite", help="print a file with its events replaced by those on standard input")
    one.add_argument("--source", metavar="FILE", required=True, help="the file")
    one.add_argument("--in-place", action="store_true", help="replace the file")
    one.set_defaults(run=_rewrite)
    for name in ("read", "write", "rewrite"):
        _add_syntax(commands.choices[name])

    one = commands.add_parser("mdbook", help="be a preprocessor of mdBook: COMMAND changes the events of each chapter",
                              usage="python -m tocmark mdbook [--once] [--syntax NAME] [--extension NAME].. -- COMMAND [ARG..]")
    one.add_argument("--once", action="store_true",
                     help="start COMMAND once for the book: it reads a line for each chapter, an object with file, name and events, "
                          "and writes a line with the new events for each")
    one.set_defaults(run=_mdbook_by_command)
    _add_syntax(one, *_mdbook.EXTENSIONS)
    return parser


def main(arguments: Optional[List[str]] = None) -> int:
    """Runs a command, and returns the status: 0 after success, 1 after an error, 2 for wrong arguments. `format` doesn't return:
    tocmark-format takes the place of the process."""
    given = list(sys.argv[1:] if arguments is None else arguments)
    parser, command = _parser(), []
    if given[:1] == ["format"]:
        try:
            _format(given[1:])
        except OSError as error:
            print(f"tocmark: {error}", file=sys.stderr)
            return 2
    if given[:1] == ["mdbook"] and "--" in given:
        at = given.index("--")
        given, command = given[:at], given[at + 1:]
    words = parser.parse_args(given)
    words.command = command
    if words.run is _mdbook_by_command and not command:
        parser.error("mdbook needs a command: mdbook -- COMMAND [ARG..]")
    try:
        return int(words.run(words))
    except (Error, MemoryError, OSError, RecursionError, TypeError, ValueError) as error:
        print(f"tocmark: {error}", file=sys.stderr)
        return 1


if __name__ == "__main__":
    sys.exit(main())
