"""Calls the Python package or its library for each of some files. `benches/json` counts what that takes.

    calls.py CALL TIMES FILE ..

CALL is `read`, `write` (over the file as the source) or `both`; or `library-read` or `library-write`, calls of the library
alone, with bytes that are ready. They are the calls that make and take JSON, whatever calls `read` and `write` make: so
figures stay comparable. It prints the seconds of processor time of the calls.
"""
import sys
import time

import tocmark
from tocmark import _calls, _library, _options

FLAGS = _options.flags_of("gfm", ())


def prepared(call, text):
    """Returns what makes this call for a text."""
    if call == "read":
        return lambda: tocmark.read(text)
    if call == "both":
        return lambda: tocmark.write(tocmark.read(text), text, check_document=False)
    data = text.encode()
    room = _library.ctypes.create_string_buffer(12 * len(data) + 4096)
    if call == "library-read":
        return lambda: _library.read_json(data, len(data), FLAGS, room, len(room))
    events = tocmark.read(text)
    if call == "write":
        return lambda: tocmark.write(events, text, check_document=False)
    given, place = _calls._json_of(events), _library.Place(size=_library.ctypes.sizeof(_library.Place))
    return lambda: _library.write_json(given, len(given), data, len(data), FLAGS, b"", 0, place, room, len(room))


def main(call, times, *paths):
    calls = []
    for path in paths:
        with open(path, encoding="utf-8", newline="") as file:
            calls.append(prepared(call, file.read()))
    began = time.process_time()
    for _ in range(int(times)):
        for each in calls:
            each()
    print(time.process_time() - began)


if __name__ == "__main__":
    main(*sys.argv[1:])
