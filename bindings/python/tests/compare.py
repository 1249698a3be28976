"""Compares the library with the program tocmark-events: both read and write the same texts.

    python3 compare.py PROGRAM TEXTS
"""
import json
import subprocess
import sys
import tempfile

import tocmark


def program(name, words, given):
    return subprocess.run([name, *words], input=given.encode(), stdout=subprocess.PIPE, check=True).stdout.decode()


def position(end, text, offset):
    line, column = tocmark.position_of(text, offset)
    return {f"{end}_line": line, f"{end}_column": column}


def without_destinations(pairs):
    return [[event, {key: it for key, it in place.items() if not key.startswith("dest_")}] for event, place in pairs]


def main(name, texts):
    with open(texts, encoding="utf-8") as file:
        lines = [json.loads(line) for line in file if line.startswith('"')]
    wrong = 0
    for at, text in enumerate(lines):
        syntax = "all" if at % 2 else "commonmark"
        found = program(name, ["read", "--syntax", syntax], text)
        pairs = [[event, {"start": place.start, "end": place.stop}] for event, place in tocmark.read(text, syntax=syntax)]
        wrong += json.loads(found) != pairs
        located = [[event, {"start": place.start, "end": place.stop, **position("start", text, place.start), **position("end", text, place.stop)}]
                   for event, place in tocmark.read(text, syntax=syntax)]
        wrong += without_destinations(json.loads(program(name, ["read", "--positions", "--syntax", syntax], text))) != located
        with tempfile.NamedTemporaryFile("w", encoding="utf-8") as source:
            source.write(text)
            source.flush()
            written = program(name, ["write", "--syntax", syntax, "--source", source.name], found)
        if text:
            wrong += written != tocmark.write(tocmark.read(text, syntax=syntax), text, syntax=syntax)
        wrong += program(name, ["write", "--syntax", syntax], found) != tocmark.write(tocmark.read(text, syntax=syntax), syntax=syntax)
    if wrong:
        sys.exit(f"compare: {wrong} answers differ")


if __name__ == "__main__":
    main(*sys.argv[1:])
