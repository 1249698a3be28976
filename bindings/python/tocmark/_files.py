"""Files that are replaced whole."""
import contextlib
import errno
import fcntl
import os
import stat
import sys
from typing import TYPE_CHECKING, Any, Dict, Iterable, List, Mapping, Optional, Tuple, Union

from ._options import flags_of, flags_of_each, style_of
from ._program import formatted
from .events import Style

if sys.version_info >= (3, 11):
    from typing import Unpack
elif TYPE_CHECKING:
    from typing_extensions import Unpack

Path = Union[str, "os.PathLike[str]"]


def read_file(path: Path) -> str:
    """Returns the text of a file, with its line endings."""
    with open(path, encoding="utf-8", newline="") as file:
        return file.read()


def _identity(status: os.stat_result) -> Tuple[int, int]:
    return status.st_dev, status.st_ino


def _attributes_of(file: int) -> Dict[str, bytes]:
    """Returns the extended attributes of an open file. Its access control list is one."""
    try:
        return {name: os.getxattr(file, name) for name in os.listxattr(file)}
    except OSError as fault:
        if fault.errno != errno.ENOTSUP:
            raise
        return {}


def _copy_attributes(old: int, new: int) -> None:
    """Gives an open file the owner, the permissions, the access control list and the other attributes of another one."""
    status, now = os.fstat(old), os.fstat(new)
    if (now.st_uid, now.st_gid) != (status.st_uid, status.st_gid):
        os.fchown(new, status.st_uid, status.st_gid)
    if hasattr(os, "listxattr"):
        wanted, found = _attributes_of(old), _attributes_of(new)
        for name in found.keys() - wanted.keys():
            os.removexattr(new, name)
        for name, value in wanted.items():
            if found.get(name) != value:
                os.setxattr(new, name, value)
    os.fchmod(new, stat.S_IMODE(status.st_mode))


class _OpenFile:
    """A file that is open, and its folder: what others do to the path later leads to no other file. A link is followed."""

    def __init__(self, path: Path) -> None:
        target = os.path.realpath(path)
        self.name = os.path.basename(target)
        self.path = os.fspath(path)
        self.folder = os.open(os.path.dirname(target), os.O_RDONLY | os.O_DIRECTORY | os.O_CLOEXEC)
        try:
            flags = os.O_RDONLY | os.O_NOFOLLOW | os.O_NONBLOCK | os.O_CLOEXEC
            self.file = os.open(self.name, flags, dir_fd=self.folder)
        except BaseException:
            os.close(self.folder)
            raise

    def __enter__(self) -> "_OpenFile":
        return self

    def __exit__(self, *fault: object) -> None:
        os.close(self.file)
        os.close(self.folder)

    def text(self) -> str:
        """Returns its text, with its line endings."""
        if not stat.S_ISREG(os.fstat(self.file).st_mode):
            raise OSError(f"{self.path!r} is no regular file")
        with open(os.dup(self.file), encoding="utf-8", newline="") as file:
            file.seek(0)
            return file.read()

    def _leads_to(self, name: str, file: int) -> bool:
        """Returns whether a name in the folder leads to an open file itself."""
        status = os.stat(name, dir_fd=self.folder, follow_symlinks=False)
        return _identity(status) == _identity(os.fstat(file))

    def _create(self) -> Tuple[str, int]:
        """Returns the name of a new file in the folder, and the file, which nobody else can read."""
        for turn in range(1000):
            name = f".{self.name}.{turn}.tocmark"
            with contextlib.suppress(FileExistsError):
                flags = os.O_WRONLY | os.O_CREAT | os.O_EXCL | os.O_CLOEXEC
                file = os.open(name, flags, 0o600, dir_fd=self.folder)
                # The lock says that a call writes it. A file system without locks has no call that looks for one.
                with contextlib.suppress(OSError):
                    fcntl.flock(file, fcntl.LOCK_EX | fcntl.LOCK_NB)
                return name, file
        raise FileExistsError(f"{self.path!r}: too many new files lie beside it")

    def replace(self, old: str, new: str) -> None:
        """Replaces its text whole, or not at all. Owner, permissions, access control list and attributes stay."""
        if os.fstat(self.file).st_mode & stat.S_IWUSR == 0:
            raise PermissionError(errno.EACCES, "is read-only", self.path)
        beside, handle = self._create()
        try:
            with os.fdopen(handle, "w", encoding="utf-8", newline="") as file:
                _copy_attributes(self.file, handle)
                file.write(new)
                file.flush()
                os.fsync(handle)
                if self.text() != old or not self._leads_to(self.name, self.file) or not self._leads_to(beside, handle):
                    raise OSError(f"{self.path!r} was changed meanwhile")
                os.rename(beside, self.name, src_dir_fd=self.folder, dst_dir_fd=self.folder)
        except BaseException:
            with contextlib.suppress(FileNotFoundError):
                os.unlink(beside, dir_fd=self.folder)
            raise


def replace_file(path: Path, old: str, new: str) -> None:
    """Replaces the text of a file whole, or not at all. A link is followed. Owner and permissions stay."""
    with _OpenFile(path) as file:
        file.replace(old, new)


def _words_of(syntax: Optional[str], extensions: Iterable[str], also_read: Iterable[str], style: Mapping[str, Any]) -> List[str]:
    """Returns the arguments of tocmark-format for these options. Raises what `format` does if one can't be."""
    for name in style:
        if name not in Style.__annotations__:
            raise TypeError(f"format_file() got an unexpected keyword argument {name!r}")
    flags_of("gfm" if syntax is None else syntax, extensions)
    flags_of_each(also_read)
    style_of(**style)
    named = {"ordered" if name == "delimiter" else name: value for name, value in style.items() if value != ""}
    return [*([] if syntax is None else [f"--syntax={syntax}"]), *(f"--extension={name}" for name in extensions),
            *(f"--also-read={name}" for name in also_read),
            *(f"--{name.replace('_', '-')}={value}" for name, value in named.items())]


def _each(names: Union[str, Iterable[str]]) -> List[str]:
    return [names] if isinstance(names, str) else list(names)


def format_file(path: Path, *, check: bool = False, syntax: Optional[str] = None, extensions: Iterable[str] = (),
                also_read: Union[str, Iterable[str]] = (), also: Union[str, Iterable[str]] = (),
                **style: "Unpack[Style]") -> bool:
    """Formats a file in place, as `tocmark-format` does: by its configuration `.tocmark.toml`, and by the arguments, which come
    first. Returns whether it changed; with `check`, whether it would, and writes nothing. A file that the configuration excludes
    stays. The file has its old text or its new one at each time. It keeps its owner, its permissions and its attributes.

    Raises what `format` does, also for a wrong configuration; `FileNotFoundError` if tocmark-format isn't installed; `OSError`;
    and `UnicodeDecodeError` if the file isn't UTF-8.
    """
    names = extensions if isinstance(extensions, str) else list(extensions)
    words = _words_of(syntax, names, [*_each(also_read), *_each(also)], style)
    with _OpenFile(path) as file:
        old = file.text()
        new = formatted(os.fspath(path), old, words)
        if new != old and not check:
            file.replace(old, new)
    return new != old
