"""The shared library: where it is, and its functions with their types."""
import ctypes
import os
from functools import lru_cache
from typing import Any, Tuple

_HERE = os.path.dirname(os.path.realpath(__file__))
_CHECKOUT = os.path.join(_HERE, "..", "..", "c")
_PLACES = [os.path.join(_HERE, "libtocmark.so"), os.path.join(_CHECKOUT, "build", "libtocmark.so"), "libtocmark.so.0"]
_VERSION = 0x000100


def _open(place: str) -> ctypes.CDLL:
    try:
        return ctypes.CDLL(place)
    except OSError as error:
        if os.path.exists(os.path.join(_CHECKOUT, "Makefile")) and "TOCMARK_LIBRARY" not in os.environ:
            raise ImportError("libtocmark.so isn't built in this checkout: docs/BINDINGS.md says how to build it") from error
        raise ImportError(f"{place} can't be loaded ({error}): install libtocmark.so, or name it in TOCMARK_LIBRARY") from error


def _load() -> ctypes.CDLL:
    """Returns the library that TOCMARK_LIBRARY names, or that of the package, of the checkout or of the system."""
    named = os.environ.get("TOCMARK_LIBRARY")
    places = [named] if named else [place for place in _PLACES if os.sep not in place or os.path.exists(place)]
    library = _open(places[0])
    if not hasattr(library, "tocmark_version"):
        raise ImportError(f"{places[0]} isn't the library of tocmark: it has no tocmark_version")
    library.tocmark_version.restype = ctypes.c_uint32
    library.tocmark_version.argtypes = []
    if library.tocmark_version() != _VERSION:
        raise ImportError(f"{places[0]} has the version {library.tocmark_version():#x}, and this package needs {_VERSION:#x}")
    return library


_text = [ctypes.c_char_p, ctypes.c_size_t]
_room = [ctypes.c_void_p, ctypes.c_size_t]
_library = _load()


def _function(name: str, *types: Any) -> Any:
    function = getattr(_library, name, None)
    if function is None:
        raise ImportError(f"{_library._name} is another version than this package needs: it has no {name}")
    function.restype = ctypes.c_ssize_t
    function.argtypes = list(types)
    return function


class Style(ctypes.Structure):
    """`struct tocmark_style` of `tocmark.h`."""

    _fields_ = [(name, ctypes.c_uint32) for name in (
        "size", "bullet", "delimiter", "numbering", "emphasis", "strong", "fence", "fence_length", "hard_break", "rule",
        "table_width", "wrap", "list_indent", "tables")]


class Place(ctypes.Structure):
    """`struct tocmark_place` of `tocmark.h`."""

    _fields_ = [("size", ctypes.c_uint32), ("event", ctypes.c_size_t), ("first_line", ctypes.c_size_t),
                ("last_line", ctypes.c_size_t)]


compare = _function("tocmark_compare", *_text, *_text, ctypes.c_uint32, ctypes.c_uint32, *_room)
definitions = _function("tocmark_definitions", *_text, ctypes.c_uint32, *_room)
error_text = _function("tocmark_error_text", ctypes.c_ssize_t, *_room)
format_text = _function("tocmark_format_also", *_text, ctypes.c_uint32, ctypes.POINTER(ctypes.c_uint32), ctypes.c_size_t,
                        ctypes.POINTER(Style), *_room)
headings = _function("tocmark_headings", *_text, ctypes.c_uint32, *_room)
links = _function("tocmark_links", *_text, ctypes.c_uint32, *_room)
read_json = _function("tocmark_read_json", *_text, ctypes.c_uint32, *_room)
read_marshal = _function("tocmark_read_marshal", *_text, ctypes.c_uint32, *_room)
redefine = _function("tocmark_redefine", *_text, *_text, ctypes.c_uint32, ctypes.POINTER(Place), *_room)
rewrite = _function("tocmark_rewrite", *_text, *_text, ctypes.c_uint32, *_text, ctypes.POINTER(Place), *_room)
words = _function("tocmark_words", *_text, ctypes.c_uint32, *_room)
write_checked = _function("tocmark_write_checked_at", *_text, *_text, ctypes.c_uint32, *_text, ctypes.POINTER(Place), *_room)
write_marshal = _function("tocmark_write_marshal_at", *_text, *_text, ctypes.c_uint32, *_text, ctypes.POINTER(Place), *_room)
write_json = _function("tocmark_write_json_at", *_text, *_text, ctypes.c_uint32, *_text, ctypes.POINTER(Place), *_room)


@lru_cache(maxsize=None)
def _buffers(bits: int) -> Any:
    """The type of buffers of 2 ** bits bytes. To make a type takes longer than to make a buffer."""
    return ctypes.c_char * (1 << bits)


def filled(function: Any, *arguments: Any, guess: int) -> Tuple[int, Any]:
    """Calls a function with a buffer of at least this many bytes, and again if that is too small. Returns its number and the
    buffer."""
    while True:
        room = _buffers(guess.bit_length())()
        size = function(*arguments, room, len(room))
        if size <= len(room):
            return size, room
        guess = size


def answer(function: Any, *arguments: Any, guess: int) -> Tuple[int, bytes]:
    """Calls a function as `filled` does. Returns its number and the text."""
    size, room = filled(function, *arguments, guess=guess)
    return size, ctypes.string_at(room, max(size, 0))
