"""The program tocmark-format: where it is, and calls of it."""
import os
import shutil
import subprocess
from functools import lru_cache
from importlib import metadata
from typing import Iterator, Sequence

from ._errors import InvalidStyle

_HERE = os.path.dirname(os.path.realpath(__file__))
_CRATE = "tocmark_format_program"
_VERSION = "tocmark-format 0.1.0"


def _installed() -> Iterator[str]:
    """Yields the program that pip installed with this package: the list of its files names that."""
    for found in metadata.distributions(name="tocmark"):
        if os.path.realpath(str(found.locate_file("tocmark"))) == _HERE:
            yield from (str(found.locate_file(file)) for file in found.files or [] if file.name == "tocmark-format")


def _places() -> Iterator[str]:
    yield from _installed()
    yield os.path.join(_HERE, "..", "..", "..", "crates", _CRATE, "out", _CRATE)
    yield shutil.which("tocmark-format") or ""


def _is_this_version(place: str) -> bool:
    try:
        said = subprocess.run([place, "--version"], stdin=subprocess.DEVNULL, stdout=subprocess.PIPE, stderr=subprocess.DEVNULL, check=False)
    except OSError:
        return False
    return said.stdout.decode(errors="replace").partition("\n")[0] == _VERSION


@lru_cache(maxsize=None)
def _find(named: str) -> str:
    for place in [named] if named else _places():
        if os.access(place, os.X_OK) and _is_this_version(place):
            return os.path.realpath(place)
    if named:
        raise FileNotFoundError(f"TOCMARK_FORMAT names {named}, which isn't {_VERSION}")
    raise FileNotFoundError(f"{_VERSION} is neither in this package nor on PATH: install the wheel of a release, "
                            "or name the program in TOCMARK_FORMAT")


def program() -> str:
    """Returns the path of tocmark-format: that in TOCMARK_FORMAT, or the one that was installed with this package, that of this
    checkout, or the first on PATH. It has the version of this package. Raises `FileNotFoundError`."""
    return _find(os.environ.get("TOCMARK_FORMAT", ""))


def formatted(path: str, text: str, options: Sequence[str]) -> str:
    """Returns the text of a file in the style of its configuration and of these options. Raises `InvalidStyle` if one is wrong."""
    words = [program(), "--quiet", *options, f"--stdin-filepath={path}"]
    done = subprocess.run(words, input=text.encode(), stdout=subprocess.PIPE, stderr=subprocess.PIPE, check=False)
    if done.returncode == 0:
        return done.stdout.decode()
    said = done.stderr.decode(errors="replace").strip().rpartition("\n")[2]
    raise InvalidStyle(-15, cause=said) if done.returncode == 2 else OSError(said or f"tocmark-format ended with status {done.returncode}")
