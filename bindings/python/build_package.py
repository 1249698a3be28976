"""Builds the package, for `pip wheel`, `pip install`, `pip install -e` and `python -m build`: the wheel with the shared library
and the commands, and a source distribution that has them, too. As a Git repository, this is also a hook of pre-commit and an
action of GitHub.

The library is the one that TOCMARK_LIBRARY names, that of a source distribution, or what `make -C bindings/c` built. The
commands are those below the folder that TOCMARK_RELEASE names (an unpacked release), those of a source distribution, or what
tools/install built in this checkout; if it built none, the wheel has none. Nothing but Python is needed, so no network.

The same inputs give the same bytes: the files are dated SOURCE_DATE_EPOCH, or 1980.
"""
import base64
import gzip
import hashlib
import io
import os
import re
import sys
import sysconfig
import tarfile
import time
import zipfile

NAME, VERSION = "tocmark", "0.1.0"
HERE = os.path.dirname(os.path.realpath(__file__))
PACKAGE = os.path.join(HERE, NAME)
TOP = os.path.join(HERE, "..", "..")
#: Each command, with its crate if it is a program and not a script.
COMMANDS = {
    "tocmark-format": "tocmark_format_program",
    "tocmark-compare": "tocmark_compare_program",
    "tocmark-links": "tocmark_links_program",
    "tocmark-lsp": "tocmark_lsp_program",
    "tocmark-events": "tocmark_events_program",
    "tocmark-filter": None,
    "tocmark-guard": None,
}
#: What makes a Git repository of a source distribution a hook and an action.
HOOKS = [".pre-commit-hooks.yaml", "action.yml"]
# The C library of a wheel with the tag manylinux2014.
OLDEST = (2, 17)
CLASSIFIERS = [
    "Development Status :: 4 - Beta",
    "Environment :: Console",
    "Intended Audience :: Developers",
    "License :: OSI Approved :: Apache Software License",
    "Operating System :: POSIX :: Linux",
    "Programming Language :: Python :: 3",
    "Programming Language :: Python :: 3 :: Only",
    "Programming Language :: Python :: 3.10",
    "Programming Language :: Python :: 3.11",
    "Programming Language :: Python :: 3.12",
    "Programming Language :: Python :: 3.13",
    "Topic :: Documentation",
    "Topic :: Text Processing :: Markup :: Markdown",
    "Typing :: Typed",
]


def found(*places):
    """Returns the first of these files that exists."""
    for place in places:
        if os.path.exists(place):
            return place
    sys.exit(f"tocmark: {places[-1]} doesn't exist: docs/BINDINGS.md says how to build the library")


def library():
    named = os.environ.get("TOCMARK_LIBRARY")
    return found(named) if named else found(f"{PACKAGE}/libtocmark.so", f"{HERE}/../c/build/libtocmark.so")


def own(name):
    """Returns the path of a file that is at the top of a checkout, and of a source distribution."""
    return found(f"{HERE}/{name}", f"{TOP}/{name}")


def read(path):
    with open(path, "rb") as file:
        return file.read()


def release():
    """Returns the files below the folder of a release that the wheel has, too, by their paths there, or those of a checkout."""
    folder = os.environ.get("TOCMARK_RELEASE") or f"{HERE}/release"
    pages = [f"share/man/man1/{name}.1" for name in COMMANDS]
    if os.path.isdir(folder):
        proved = [path for path in ["share/doc/tocmark/PROVED.txt"] if os.path.exists(f"{folder}/{path}")]
        return {path: read(found(f"{folder}/{path}")) for path in [*(f"bin/{name}" for name in COMMANDS), *pages, *proved]}
    places = [f"{TOP}/crates/{crate}/out/{crate}" if crate else f"{TOP}/{name}" for name, crate in COMMANDS.items()]
    if not all(map(os.path.exists, places)):
        return {}
    files = {f"bin/{name}": read(place) for name, place in zip(COMMANDS, places)}
    return {**files, **{path: read(f"{TOP}/docs/man/{os.path.basename(path)}") for path in pages}}


def platforms(*programs):
    """Returns the tags of the platforms on which all of these run: each has a C library that is new enough."""
    machine = sysconfig.get_platform().rpartition("-")[2]
    versions = [(int(major), int(minor)) for data in programs for major, minor in re.findall(rb"GLIBC_(\d+)\.(\d+)", data)]
    newest = max([*versions, OLDEST])
    tags = [f"manylinux_{newest[0]}_{newest[1]}_{machine}"]
    return tags + [f"manylinux2014_{machine}"] if newest == OLDEST else tags


def metadata():
    lines = ["Metadata-Version: 2.1", f"Name: {NAME}", f"Version: {VERSION}",
             "Summary: Changes and formats Markdown, and keeps what you don't touch, over a proved library",
             "Keywords: markdown,commonmark,formatter,mdbook,filter", "License: Apache-2.0", "License-File: LICENSE",
             "Requires-Python: >=3.10", *(f"Classifier: {it}" for it in CLASSIFIERS),
             "Description-Content-Type: text/markdown", "", ""]
    return "\n".join(lines).encode() + read(f"{HERE}/README.md")


def modules():
    """Returns the files of the package without the library, by their names."""
    return {f"{NAME}/{name}": read(os.path.join(PACKAGE, name)) for name in sorted(os.listdir(PACKAGE))
            if name.endswith(".py") or name == "py.typed"}


def moment():
    """Returns the time by which files are dated, in seconds. A zip file knows none before 1980."""
    return max(int(os.environ.get("SOURCE_DATE_EPOCH") or 0), 315532800)


def is_run(name):
    """Returns whether a file is a program or a library."""
    return name.endswith(".so") or "/bin/" in name or "/scripts/" in name


def write_wheel(folder, files, tags):
    """Writes a wheel of these files for these platforms into the folder, and returns its name."""
    info, tag = f"{NAME}-{VERSION}.dist-info", f"py3-none-{'.'.join(tags)}"
    about = "Wheel-Version: 1.0\nGenerator: build_package\nRoot-Is-Purelib: false\n" + "".join(
        f"Tag: py3-none-{it}\n" for it in tags)
    files = {**files, f"{info}/METADATA": metadata(), f"{info}/WHEEL": about.encode(), f"{info}/LICENSE": read(own("LICENSE"))}
    rows = ""
    for name, data in files.items():
        digest = base64.urlsafe_b64encode(hashlib.sha256(data).digest()).rstrip(b"=").decode()
        rows += f"{name},sha256={digest},{len(data)}\n"
    files[f"{info}/RECORD"] = f"{rows}{info}/RECORD,,\n".encode()
    wheel = f"{NAME}-{VERSION}-{tag}.whl"
    with zipfile.ZipFile(os.path.join(folder, wheel), "w", zipfile.ZIP_DEFLATED) as archive:
        for name, data in files.items():
            entry = zipfile.ZipInfo(name, time.gmtime(moment())[:6])
            entry.compress_type, entry.create_system = zipfile.ZIP_DEFLATED, 3
            entry.external_attr = (0o100755 if is_run(name) else 0o100644) << 16
            archive.writestr(entry, data)
    return wheel


def build_wheel(wheel_directory, config_settings=None, metadata_directory=None):
    """Writes the wheel into the folder, and returns its name."""
    shared, data = read(library()), f"{NAME}-{VERSION}.data"
    parts = {(f"{data}/scripts/{path[4:]}" if path.startswith("bin/") else f"{data}/data/{path}"): it
             for path, it in release().items()}
    return write_wheel(wheel_directory, {**modules(), f"{NAME}/libtocmark.so": shared, **parts},
                       platforms(shared, *(it for path, it in parts.items() if is_run(path))))


def build_editable(wheel_directory, config_settings=None, metadata_directory=None):
    """Writes a wheel that leads to this folder, and returns its name. The library is found as in a checkout."""
    return write_wheel(wheel_directory, {f"{NAME}.pth": f"{HERE}\n".encode()}, ["any"])


def build_sdist(sdist_directory, config_settings=None):
    """Writes the source distribution into the folder, and returns its name."""
    top = f"{NAME}-{VERSION}"
    files = {"PKG-INFO": metadata(), f"{NAME}/libtocmark.so": read(library()), **modules()}
    files.update({name: read(f"{HERE}/{name}") for name in ("README.md", "build_package.py", "pyproject.toml")})
    files.update({name: read(own(name)) for name in ["LICENSE", *HOOKS]})
    files.update({f"release/{path}": data for path, data in release().items()})
    with open(os.path.join(sdist_directory, f"{top}.tar.gz"), "wb") as file, \
            gzip.GzipFile("", "wb", fileobj=file, mtime=moment()) as packed, \
            tarfile.open(fileobj=packed, mode="w", format=tarfile.PAX_FORMAT) as archive:
        for name, data in files.items():
            member = tarfile.TarInfo(f"{top}/{name}")
            member.size, member.mode, member.mtime = len(data), 0o755 if is_run(name) else 0o644, moment()
            archive.addfile(member, io.BytesIO(data))
    return f"{top}.tar.gz"
