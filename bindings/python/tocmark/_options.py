"""Syntaxes, extensions, options of the writer and styles, as the library takes them."""
import ctypes
import json
from typing import Any, Iterable, Mapping

from . import _library
from ._errors import InvalidOptions, InvalidStyle

#: The extensions, by their names, with the flag of each.
EXTENSIONS: Mapping[str, int] = {
    "tables": 1 << 1, "footnotes": 1 << 2, "strikethrough": 1 << 3, "tasklists": 1 << 4, "yaml-metadata": 1 << 7,
    "pluses-metadata": 1 << 8, "superscript": 1 << 13, "subscript": 1 << 14, "heading-attributes": 1 << 6,
    "math": 1 << 10, "quote-kinds": 1 << 11, "definition-lists": 1 << 12,
}

_GFM = ("tables", "footnotes", "strikethrough", "tasklists", "yaml-metadata", "pluses-metadata", "quote-kinds")

#: The syntaxes, by their names, with the flags of each.
SYNTAXES: Mapping[str, int] = {
    "commonmark": 0,
    "gfm": sum(EXTENSIONS[name] for name in _GFM),
    "all": sum(EXTENSIONS.values()),
}

_NUMBERINGS = {"source": 0, "first": 1, "increment": 2}
_HARD_BREAKS = {"source": 0, "backslash": 1, "spaces": 2}
_RULES = {"---": 0, "source": 1}
#: What the options of marks take beside "", the default. `delimiter` is another name of `ordered`.
_MARKS = {"bullet": ("*", "-", "+", "source"), "ordered": (".", ")", "source"), "delimiter": (".", ")", "source"),
          "fence": ("`", "~", "source"), "emphasis": ("*", "_", "source"), "strong": ("*", "_", "**", "__", "source")}
_HEADINGS = {"#": 0, "source": 2}
_TABLES = {"aligned": 0, "source": 1}
_WRAPS: dict[int | str, int] = {"keep": 0, "no": 2**32 - 1, "sentence": 2**32 - 2}
_LIST_INDENTS: dict[int | str, int] = {"source": 0, "marker": 1, 4: 4}

#: What each look sets, if the style doesn't.
_LOOKS: dict[str, dict[str, Any]] = {
    "": {},
    "source": {"rule": "source", "heading": "source", "tables": "source"},
    "one": {"bullet": "-", "ordered": ".", "numbering": "increment", "emphasis": "*", "strong": "**", "fence": "`",
            "hard_break": "backslash", "list_indent": "marker"},
}

_TOKENS = {"code_block_token": ("`", "~"), "list_token": ("*", "-", "+"), "ordered_list_token": (".", ")"),
           "emphasis_token": ("*", "_"), "strong_token": ("**", "__")}
_TRUTHS = ("increment_ordered_list_bullets", "use_html_for_super_sub_script", "check_plain_blocks")
_SIZES = ("code_block_token_count", *(f"newlines_after_{name}" for name in (
    "headline", "paragraph", "codeblock", "htmlblock", "table", "rule", "list", "blockquote", "metadata", "rest")))


def flags_of(syntax: str, extensions: Iterable[str]) -> int:
    """Returns the flags of a syntax with extensions added, and those removed that are named with `no-` in front."""
    if isinstance(extensions, str):
        raise TypeError(f"extensions must be a list of names, and not the str {extensions!r}")
    if syntax not in SYNTAXES:
        raise ValueError(f"{syntax!r} is none of {', '.join(SYNTAXES)}")
    flags = SYNTAXES[syntax]
    for name in extensions:
        is_removed = name.startswith("no-")
        flag = EXTENSIONS.get(name[3:] if is_removed else name)
        if flag is None:
            raise ValueError(f"{name!r} is none of {', '.join(EXTENSIONS)}, alone or with no- in front")
        flags = flags & ~flag if is_removed else flags | flag
    return flags


def flags_of_each(*groups: str | Iterable[str]) -> Any:
    """Returns an array of the flags of each syntax in some groups, where a group is a name or several."""
    flags = [flags_of(name, ()) for group in groups for name in ([group] if isinstance(group, str) else group)]
    return (ctypes.c_uint32 * len(flags))(*flags)


def _wanted(name: str, value: Any) -> str:
    """Returns what an option must be, or "" if the value is such."""
    if name in _TOKENS:
        return "" if value in _TOKENS[name] else f"one of {' '.join(_TOKENS[name])}"
    if name in _TRUTHS:
        return "" if isinstance(value, bool) else "True or False"
    is_size = isinstance(value, int) and not isinstance(value, bool) and 0 <= value < 2**63 - 1
    return "" if is_size else "a whole number from 0, below 2**63 - 1"


def options_of(options: Mapping[str, Any]) -> bytes:
    """Returns the JSON of the writer's options, or raises `InvalidOptions` that names the one that is wrong."""
    for name, value in options.items():
        if name not in _TOKENS and name not in _TRUTHS and name not in _SIZES:
            raise InvalidOptions(-8, cause=f"there is no option {name}")
        wanted = _wanted(name, value)
        if wanted:
            raise InvalidOptions(-8, cause=f"{name}: expected {wanted}, and not {value!r}")
    return json.dumps(options).encode() if options else b""


def _is_size(value: Any, least: int) -> bool:
    return isinstance(value, int) and not isinstance(value, bool) and least <= value <= 1000


def _codes_of(marks: Mapping[str, str]) -> dict[str, int]:
    """Returns the number of the character of each mark, or 0 for the default, or raises `InvalidStyle`."""
    for name, mark in marks.items():
        if mark != "" and mark not in _MARKS[name]:
            raise InvalidStyle(-15, cause=f"{name} must be one of {' '.join(_MARKS[name])}, or empty, and not {mark!r}")
    if marks["ordered"] and marks["delimiter"]:
        raise TypeError("ordered and delimiter are one option: pass one of them")
    codes = {name: 0 if mark in ("", "source") else ord(mark[0]) for name, mark in marks.items()}
    codes["delimiter"] += codes.pop("ordered")
    return codes


def with_look(style: Mapping[str, Any]) -> dict[str, Any]:
    """Returns the parts of a style, and those that its `look` sets."""
    parts = dict(style)
    look = parts.pop("look", "")
    if look not in _LOOKS:
        raise ValueError(f"look must be source or one, or empty, and not {look!r}")
    others = dict(_LOOKS[look])
    if "delimiter" in parts:
        others.pop("ordered", None)
    return {**others, **parts}


def style_of(*, bullet: str = "", ordered: str = "", delimiter: str = "", numbering: str = "source", emphasis: str = "",
             strong: str = "", fence: str = "", fence_length: int = 3, hard_break: str = "source", rule: str = "---",
             heading: str = "#", tables: str = "aligned", table_width: int = 120, wrap: int | str = "keep",
             list_indent: int | str = "source") -> _library.Style:
    """Returns a style, or raises `ValueError` if a name or a number can't be, and `InvalidStyle` if a character can't."""
    for name, known in ((numbering, _NUMBERINGS), (hard_break, _HARD_BREAKS), (rule, _RULES), (heading, _HEADINGS),
                        (tables, _TABLES)):
        if name not in known:
            raise ValueError(f"{name!r} is none of {', '.join(known)}")
    if not _is_size(fence_length, 3):
        raise ValueError(f"fence_length must be from 3 to 1000, and not {fence_length!r}")
    if not _is_size(table_width, 1):
        raise ValueError(f"table_width must be from 1 to 1000, and not {table_width!r}")
    if wrap not in _WRAPS and not _is_size(wrap, 1):
        raise ValueError(f"wrap must be keep, no, sentence, or from 1 to 1000, and not {wrap!r}")
    if list_indent not in _LIST_INDENTS:
        raise ValueError(f"list_indent must be source, marker or 4, and not {list_indent!r}")
    codes = _codes_of({"bullet": bullet, "ordered": ordered, "delimiter": delimiter, "emphasis": emphasis, "strong": strong,
                       "fence": fence})
    return _library.Style(size=ctypes.sizeof(_library.Style), numbering=_NUMBERINGS[numbering],
                          hard_break=_HARD_BREAKS[hard_break], rule=_RULES[rule] + _HEADINGS[heading], fence_length=fence_length,
                          tables=_TABLES[tables], table_width=table_width, wrap=_WRAPS.get(wrap, wrap),
                          list_indent=_LIST_INDENTS[list_indent], **codes)
