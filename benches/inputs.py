"""Markdown that is meant to make a reader slow: each input is a name, a size and a text of that size. Beside it are two
large texts as people write them."""
import glob
import json
import os
import shutil

TOP = os.path.dirname(os.path.dirname(os.path.abspath(__file__)))
SIZE = 100_000
DEPTH = 10_000
COMPARED_SIZE = 1_000_000
LARGE_SIZE = 3_000_000


def repeated(word):
    return lambda size: word * size


def followed(word, last="a"):
    return lambda size: word * size + last


def headed(first, word):
    return lambda size: first + word * size


def mirrored(before, middle, after):
    return lambda size: before * size + middle + after * size


def definitions(size):
    lines = "".join(f"[k{at}]: /u{at}\n" for at in range(size))
    uses = "".join(f"[k{at}]\n" for at in range(size))
    return f"{lines}\n{uses}"


def same_definition(size):
    return "[k]: /u\n" * size + "\n" + "[k]\n" * size


def growing_ticks(size):
    """Runs of 1, 2, 3 .. backticks, `size` bytes in all; none is closed."""
    words, length, total = [], 1, 0
    while total < size:
        words.append("`" * length + "a")
        total += length + 1
        length += 1
    return "".join(words)


def lines_in_quotes(size):
    """Lines in quotes that are 100 deep."""
    return ("> " * 100 + "a\n") * (size // 100)


def fading_quotes(size):
    """Lines that are in ever fewer quotes and go on with the innermost paragraph."""
    depth = int(size**0.5)
    return "".join("> " * at + "a\n" for at in range(depth, 0, -1))


def stairs(size):
    """Lists in lists, each on a line of its own."""
    depth = int(size**0.5)
    return "".join("  " * at + "- a\n" for at in range(depth))


def stairs_and_blanks(size):
    return stairs(size // 2) + "\n" * (size // 2) + "a\n"


def paragraphs_in_list(size):
    """A list 100 deep, and paragraphs in its innermost item."""
    return "- " * 100 + "a\n" + ("\n" + "  " * 100 + "b\n") * (size // 100)


def long_label(size):
    return "[" + "a" * size + "]: /u\n\n[" + "a" * size + "]"


def labels_of_999(size):
    return ("[" + "a" * 999 + "] ") * (size // 1000)


# those that the reader was promised to be linear on
NAMED = [
    ("*", SIZE, repeated("*")),
    ("_", SIZE, repeated("_")),
    ("[", SIZE, repeated("[")),
    ("![", SIZE, repeated("![")),
    ("(", SIZE, repeated("(")),
    ("`", SIZE, repeated("`")),
    ("<", SIZE, repeated("<")),
    ("&", SIZE, repeated("&")),
    (">", SIZE, repeated(">")),
    ("- ", SIZE, repeated("- ")),
    ("1. ", SIZE, repeated("1. ")),
    ("a**b_c* ", SIZE, repeated("a**b_c* ")),
    ("[a](", SIZE, repeated("[a](")),
    ('[a](b "', SIZE, repeated('[a](b "')),
    ("<!--", SIZE, repeated("<!--")),
    ('<a b="', SIZE, repeated('<a b="')),
    ("**a *a ", SIZE, repeated("**a *a ")),
    ("> .. a", DEPTH, followed("> ")),
    ("- .. a", DEPTH, followed("- ")),
    ("1. .. a", DEPTH, followed("1. ")),
    ("> - .. a", DEPTH, followed("> - ")),
    ("definitions and uses", DEPTH, definitions),
]

BLOCKS = [
    ("lines in 100 quotes", SIZE, lines_in_quotes),
    ("fading quotes", SIZE * 10, fading_quotes),
    ("quote, lazy lines", SIZE, headed("> a\n", "b\n")),
    ("deep quote, lazy lines", SIZE, lambda size: "> " * (size // 10) + "a\n" + "b\n" * size),
    ("deep quote, blank lines", SIZE, lambda size: "> " * (size // 10) + "a\n" + "\n" * size),
    ("deep list, lazy lines", SIZE, lambda size: "- " * (size // 10) + "a\n" + "b\n" * size),
    ("deep list, blank lines", SIZE, lambda size: "- " * (size // 10) + "a\n" + "\n" * size + "b"),
    ("quote of lists, blank lines", SIZE, lambda size: "> " + "- " * (size // 10) + "a\n" + ">\n" * size),
    ("list of quotes, blank lines", SIZE, lambda size: "- " + "> " * (size // 10) + "a\n" + "  \n" * size),
    ("stairs of lists", SIZE * 10, stairs),
    ("stairs of lists, blank lines", SIZE * 10, stairs_and_blanks),
    ("paragraphs in 100 lists", SIZE, paragraphs_in_list),
    ("- with tabs", DEPTH, followed("-\t")),
    ("> with tabs", DEPTH, followed(">\t")),
    ("- a, blank", SIZE, repeated("- a\n\n")),
    ("empty items", SIZE, repeated("-\n")),
    ("- and + in turn", SIZE, repeated("- a\n+ b\n")),
    ("ordered items", SIZE, repeated("1. a\n")),
    ("long number", SIZE, repeated("1")),
    ("paragraph of lines", SIZE, repeated("a\n")),
    ("many lines underlined", SIZE, followed("a\n", "===")),
    ("underlined", SIZE, repeated("a\n===\n")),
    ("underlines", SIZE, repeated("===\n")),
    ("definition, underlines", SIZE, headed("[a]: /u\n", "===\n")),
    ("rules", SIZE, repeated("---\n")),
    ("long rule", SIZE, repeated("* ")),
    ("almost a rule", SIZE, followed("* ", "+")),
    ("#", SIZE, repeated("#")),
    ("# a #", SIZE, repeated("# a #\n")),
    ("# .. #", SIZE, headed("# ", "#")),
    ("tabs", SIZE, repeated("\t")),
    ("tab lines", SIZE, repeated("\ta\n")),
    ("spaces", SIZE, repeated(" ")),
    ("blank lines", SIZE, repeated("\n")),
    ("carriage returns", SIZE, repeated("\r")),
    ("open fence", SIZE, headed("~~~\n", "a\n")),
    ("open fence, short fences", SIZE, headed("~~~~\n", "~~~\n")),
    ("fences", SIZE, repeated("```\n")),
    ("long fence", SIZE, repeated("~")),
    ("long info", SIZE, headed("~~~ ", "&amp;")),
    ("indented code, blank lines", SIZE, headed("    a\n", "\n")),
    ("<div>", SIZE, repeated("<div>\n")),
    ("<div> and blank", SIZE, repeated("<div>\n\n")),
    ("open <pre>", SIZE, headed("<pre>\n", "</pr\n")),
    ("open <!--", SIZE, headed("<!--\n", "--\n")),
    ("open <![CDATA[", SIZE, headed("<![CDATA[\n", "]]\n")),
    ("<a> lines", SIZE, repeated("<a>\n")),
    ("one definition often", DEPTH, same_definition),
    ("definitions without end", SIZE, repeated('[a]: b "c\n')),
    ("definitions without end, blank", SIZE, repeated('[a]: b "c\n\n')),
    ("definitions, titles on lines", SIZE, repeated('[a]: b\n"c\n')),
    ("definitions, long label", SIZE, long_label),
    ("[a]:", SIZE, repeated("[a]:\n")),
    ("|", SIZE, repeated("|")),
    ("|-", SIZE, repeated("|a|\n|-|\n")),
]

INLINES = [
    ("\\", SIZE, repeated("\\")),
    ("hard breaks", SIZE, repeated("a\\\n")),
    ("spaces at ends", SIZE, repeated("a   \n")),
    ("spaces within", SIZE, repeated("a   ")),
    ("U+0000", SIZE, repeated("\0")),
    ("&amp;", SIZE, repeated("&amp;")),
    ("&#1;", SIZE, repeated("&#1;")),
    ("&# and digits", SIZE, headed("&#", "1")),
    ("&#", SIZE, repeated("&#1")),
    ("]", SIZE, repeated("]")),
    ("[ .. ]", SIZE, mirrored("[", "a", "]")),
    ("![ .. ]", SIZE, mirrored("![", "a", "]")),
    ("[[a](b) .. ]", SIZE, mirrored("[", "[a](b)", "](b)")),
    ("![ .. ](b)", SIZE, mirrored("![", "a", "](b)")),
    ("![[[", SIZE, repeated("![[[")),
    ("[]", SIZE, repeated("[]")),
    ("[a]", SIZE, repeated("[a]")),
    ("[a][b]", SIZE, repeated("[a][b]")),
    ("[a][]", SIZE, repeated("[a][]")),
    ("[a] defined", SIZE, headed("[a]: /u\n\n", "[a]")),
    ("[a\\]", SIZE, repeated("[a\\]")),
    ("[`[`", SIZE, repeated("[`[`")),
    ("labels of 999", SIZE * 10, labels_of_999),
    ("[a](b)", SIZE, repeated("[a](b)")),
    ("[a](<b", SIZE, repeated("[a](<b")),
    ("[a](\\(", SIZE, repeated("[a](\\(")),
    ("[a](b (", SIZE, repeated("[a](b (")),
    ("[a](b '", SIZE, repeated("[a](b '")),
    ("[a](b \" [a](b '", SIZE, repeated("[a](b \"[a](b '")),
    ("[a](  ", SIZE, repeated("[a](   ")),
    ("[a](b c)", SIZE, repeated("[a](b c)")),
    ("[a](b( .. )", SIZE, lambda size: "[a](" + "b(" * size + ")" * size),
    ("<?", SIZE, repeated("<?")),
    ("a<?", SIZE, repeated("a<?")),
    ("<![CDATA[", SIZE, repeated("<![CDATA[")),
    ("a<![CDATA[", SIZE, repeated("a<![CDATA[")),
    ("a<!--", SIZE, repeated("a<!--")),
    ("a<!-- -->", SIZE, repeated("a<!-- -->")),
    ("a<!A", SIZE, repeated("a<!A")),
    ("<a ", SIZE, repeated("<a ")),
    ("<a b='", SIZE, repeated("<a b='")),
    ("<a b=\" <a b='", SIZE, repeated("<a b=\"<a b='")),
    ('<a b="', SIZE, headed("a", '<a b="')),
    ("<a b b b", SIZE, headed("a <a", " b")),
    ("</a ", SIZE, repeated("</a ")),
    ("<a:", SIZE, repeated("<a:")),
    ("<a@b", SIZE, repeated("<a@b.")),
    ("<http://a>", SIZE, repeated("<http://a>")),
    ("<a@b.c>", SIZE, repeated("<a@b.c>")),
    ("<a", SIZE, headed("<", "a")),
    ("growing backticks", SIZE * 10, growing_ticks),
    ("`a` ``a``", SIZE, repeated("`a` ``a``")),
    ("` ``", SIZE, repeated("` ``")),
    ("* .. a", SIZE, followed("*")),
    ("_ .. a", SIZE, followed("_")),
    ("*_", SIZE, repeated("*_")),
    ("*a_ ", SIZE, repeated("*a_ ")),
    ("*a ", SIZE, repeated("*a ")),
    ("a* ", SIZE, repeated("a* ")),
    ("a*a", SIZE, repeated("a*a")),
    ("*a** ", SIZE, repeated("*a** ")),
    ("***a***", SIZE, repeated("***a***")),
    ("a***a**", SIZE, repeated("a***a**")),
    ("* .. a .. *", SIZE, mirrored("*", "a", "*")),
    ("*a .. b*", SIZE, mirrored("*a ", "", "b* ")),
    ("_a .. b*", SIZE, mirrored("_a ", "", "b* ")),
    ("*a _b .. c_ d*", SIZE, mirrored("*a _b ", "", "c_ d* ")),
    ("*[", SIZE, repeated("*[")),
    ("*[a](b)", SIZE, repeated("*[a](b)")),
    ("\u00e9*", SIZE, repeated("\u00e9*")),
    ("U+00A0", SIZE, repeated("\u00a0*")),
]



def guides():
    """The toolchain's guides one after the other, as whole files in the order of their names, from the first again after
    the last, up to 3 MB; nothing where the toolchain isn't there."""
    command = shutil.which("rt")
    kit = os.path.dirname(os.path.dirname(os.path.realpath(command))) if command else ""
    files = sorted(glob.glob(f"{kit}/**/*.md", recursive=True)) if kit else []
    texts = []
    while files and sum(map(len, texts)) < LARGE_SIZE:
        with open(files[len(texts) % len(files)], encoding="utf-8") as file:
            texts.append(file.read())
    return "".join(texts)


def plain_paragraphs():
    """3 MB of paragraphs of two lines in which nothing is marked."""
    lines = [
        "Words that mean no more than they say stand in this long line",
        "and a second line of them ends what is one short paragraph",
    ]
    paragraph = "\n".join(lines) + "\n\n"
    return paragraph * (LARGE_SIZE // len(paragraph))


def marked_paragraphs():
    """The same with a word in each that is emphasized."""
    return plain_paragraphs().replace(" mean ", " *mean* ")


def standard_examples():
    """The examples of the CommonMark standard one after the other with an empty line between, two hundred times."""
    with open(f"{TOP}/tools/test/data/commonmark.txt", encoding="utf-8") as file:
        examples = [json.loads(line) for line in file if line.startswith('"')]
    return "".join(f"{text}\n" for text in examples) * 200


def megabyte_of(part):
    """1 MB of a part, again and again."""
    return part * (COMPARED_SIZE // len(part.encode()))


def lists():
    """Lists of three items with a list in the last one, a paragraph between each two."""
    return megabyte_of("- a first item of some words\n- a second one\n- a third one\n  1. one\n  2. two\n\nA paragraph stands between.\n\n")


def one_list():
    """One list of 100,000 items."""
    return "".join(f"- item {number} of one list\n" for number in range(100_000))


def links():
    """Paragraphs of links of each kind, with the definitions that they use."""
    paragraph = "See [the guide](https://example.com/a/b.html \"Guide\"), [a page][page], <https://example.com> and ![a picture](p.png).\n\n"
    return megabyte_of(paragraph) + "[page]: https://example.com/page\n"


def code():
    """Fenced blocks of five lines, a paragraph with two code spans between each two."""
    return megabyte_of("Call `run()` with `--help`:\n\n```rust\nfn main() {\n    let n = 1;\n    println!(\"{n}\");\n    run(n);\n}\n```\n\n")


# large texts, as people write them: a name and what makes the text
LARGE = [("guides", guides), ("plain paragraphs", plain_paragraphs)]

# large texts for which programs are compared
COMPARED = [
    ("guides", guides),
    ("plain paragraphs", plain_paragraphs),
    ("marked paragraphs", marked_paragraphs),
    ("standard", standard_examples),
    ("lists", lists),
    ("one list", one_list),
    ("links", links),
    ("code", code),
]



# One shape of each common construct, of some words, again and again: what the large texts leave out shows here.
SHAPES = {
    "headings": "# A first heading of words\n\n## A second one\n\nA paragraph of a few words.\n\n",
    "underlined headings": "A first heading of words\n========================\n\nA second one\n------------\n\nA paragraph.\n\n",
    "quotes": "> A quote of some words that takes\n> two lines of the text.\n>\n> And a second paragraph in it.\n\n",
    "quotes in quotes": "> A quote of some words\n>\n> > with another one in it\n> > on two lines.\n\n",
    "lists in quotes": "> - a first item of words\n> - a second one\n>   on two lines\n\n",
    "loose lists": "- a first item of words\n\n  with a second paragraph\n\n- a second one\n\nA paragraph stands between.\n\n",
    "deep lists": "- a first item\n  - in it a second one\n    - and a third one\n      1. and a fourth one\n\nA paragraph.\n\n",
    "numbered lists": "1. a first item of words\n2. a second one\n10. a third one\n\nA paragraph stands between.\n\n",
    "lists with emphasis": "- a *first* item of **some** words\n- a `second` one, *too*\n- a **third** one\n\nA paragraph.\n\n",
    "three kinds of emphasis": "Some *soft* words, some **strong** ones, and ***both*** of them in a line of text.\n\n",
    "emphasis in words": "Some wo*rd*s, snake_case_names, __init__ and 2*3*4 in a line of text.\n\n",
    "code spans": "Call `run()` with `--help` or ``a ` b`` and read `stdout` in a line of text.\n\n",
    "indented code": "A paragraph of words:\n\n    fn main() {\n        run();\n    }\n\n",
    "HTML blocks": "<div class=\"note\">\n  <p>Some words of a note.</p>\n  <!-- a comment -->\n</div>\n\nA paragraph.\n\n",
    "HTML in lines": "Press <kbd>Ctrl</kbd> and <b>some <i>words</i></b> of a line,<br>and go on.\n\n",
    "images": "See ![a picture](pictures/a.png \"A title\") and ![another one](b.svg) in a line of text.\n\n",
    "reference links": "See [the guide][guide], [a page][] and [the last one] of these words.\n\n[guide]: /g\n[a page]: /p \"P\"\n\n",
    "addresses": "See <https://example.com/a?b=c&d>, <mail@example.com> and https://example.com in a line.\n\n",
    "hard breaks": "A first line of words  \nand a second one\\\nand a third one.\n\n",
    "marks and references": "1 < 2 &amp; 3 > 2 \\* a_b &copy; 50 % of [these] words # and + more - marks!\n\n",
}


def shape(name):
    return megabyte_of(SHAPES[name])


def rows_to_fill(size):
    """A header of so many columns, and as many rows of one cell."""
    side = int(size**0.5)
    return "|a" * side + "|\n" + "|-" * side + "|\n" + "a\n" * side


def rows_to_cut(size):
    """A table of one column with a row of so many cells."""
    return "|a|\n|-|\n" + "|a" * size


def quoted_table(size):
    """A table in as many quotes as it has rows."""
    side = int(size**0.5)
    quotes = "> " * side
    return "".join(f"{quotes}{line}\n" for line in ["|a|b|", "|-|-|", *["|1|2|"] * side])


# What extensions could make slow, read by the reader of extensions under all flags that it knows.
EXTENDED = [
    ("[x and rows that lack a column", DEPTH, headed("[x\n", "a|b\n-|-|-\n")),
    ("[x and delimiter rows", DEPTH, headed("[x\n", "a|b\n-|-\n")),
    ("[k]: /u and a header", DEPTH, followed("[k]: /u\n", "a|b\n-|-\n")),
    ("rows to fill", SIZE, rows_to_fill),
    ("rows to cut", SIZE, rows_to_cut),
    ("bars alone", SIZE, headed("|a|\n|-|\n", "|")),
    ("escaped bars in a cell", SIZE, headed("|a|\n|-|\n|", "\\|")),
    ("addresses with bars in a cell", DEPTH, headed("|a|\n|-|\n|", "<http://a\\|b>")),
    ("short rows", SIZE, headed("|a|b|\n|-|-|\n", "|1\n")),
    ("tables behind one another", DEPTH, repeated("|a|\n|-|\n|1|\n\n")),
    ("a table in quotes", SIZE, quoted_table),
    ("dashes", SIZE, repeated("-")),
    ("bars and dashes", SIZE, headed("a|b\n", "-|")),
    ("--- and texts", DEPTH, headed("---\t\na\n\n", "a\n")),
    ("---, a and a blank line", DEPTH, repeated("---\na\n\n")),
    ("+++, a and a blank line", DEPTH, repeated("+++\na\n\n")),
    ("--- in lines", SIZE, repeated("---\n")),
    ("metadata behind one another", DEPTH, repeated("---\na: b\n---\n")),
    ("boxes", DEPTH, repeated("- [ ] a\n")),
    ("boxes in one line", SIZE, followed("- [ ] ")),
    ("> [!NOTE] in lines", DEPTH, repeated("> [!NOTE]\n")),
    ("> [!NOTE] and blank lines", DEPTH, repeated("> [!NOTE]\n\n")),
    ("> [!NOTE and a line", SIZE, headed("> [!NOTE", " ")),
    ("# {", SIZE, headed("# ", "{")),
    ("# and }", SIZE, headed("# ", "}")),
    ("# {a}", SIZE, headed("# ", "{a}")),
    ("words of one attribute block", SIZE, lambda size: "# {" + "#a .b c=d " * (size // 10) + "}\n"),
    ("lines and an underline with attributes", DEPTH, repeated("a {#i}\n===\n")),
    ("[^", SIZE, repeated("[^")),
    ("[^a", SIZE, repeated("[^a")),
    ("[^a]: in one line", SIZE, followed("[^a]: ")),
    ("[^a] without a definition", SIZE, repeated("[^a]")),
    ("[^a] with a definition", DEPTH, headed("[^a]: x\n\n", "[^a]")),
    ("[^*a* and a bracket", DEPTH, followed("[^*a*", "]")),
    ("definitions of footnotes", DEPTH, lambda size: "".join(f"[^{at}]: a\n" for at in range(size))),
    ("footnotes and as many references", DEPTH, lambda size: "".join(f"[^{at}]: a\n" for at in range(size)) + "\n" + "".join(f"[^{at}]\n" for at in range(size))),
    ("paragraphs in a footnote", DEPTH, headed("[^a]: b\n", "\n    c\n")),
    ("titles and definitions", DEPTH, repeated("a\n: b\n\n")),
    ("definitions of one title", SIZE, headed("a\n", ": b\n")),
    (": in one line", SIZE, headed("a\n", ": ")),
    (": below nothing", SIZE, headed("# a\n", ": b\n\n")),
    ("[a and : b", DEPTH, repeated("[a\n: b\n")),
    ("definitions of links before a title's definitions", DEPTH, lambda size: "a\n\n" + "[x]: /u\n\n" * size + ": b\n" * size),
    ("definitions of links and : b", DEPTH, repeated("[x]: /u\n\n: b\n\n")),
    ("a title, a definition of a link and : b", DEPTH, repeated("a\n\n[x]: /u\n\n: b\n\n")),
    ("paragraphs in a definition", DEPTH, headed("a\n: b\n", "\n  c\n")),
    ("titles in items", DEPTH, repeated("- a\n  : b\n\n  c\n  : d\n")),
    ("~", SIZE, repeated("~")),
    ("~a ", SIZE, repeated("~a ")),
    ("~a and b~~", SIZE, mirrored("~a ", "", "b~~ ")),
    ("^a and b~", SIZE, mirrored("^a ", "", "b~ ")),
    ("~~a ~b ^c", SIZE, repeated("~~a ~b ^c ")),
    ("^", SIZE, repeated("^")),
    ("^a^", SIZE, repeated("^a^ ")),
    ("$", SIZE, repeated("$")),
    ("$ and a space", SIZE, repeated("$ ")),
    ("${", SIZE, repeated("${")),
    ("$}", SIZE, repeated("$}")),
    ("$a{", SIZE, repeated("$a{")),
    ("$a{ and }", SIZE, mirrored("$a{", "", "}")),
    ("$a$", SIZE, repeated("$a$ ")),
    ("backslashes and dollar signs", SIZE, headed("$a$ ", "\\\\$")),
    ("&aaaa", SIZE, headed("&", "a")),
    ("&a", SIZE, repeated("&a")),
    ("&auml;", SIZE, repeated("&auml;")),
    ("&zwnj;", SIZE, repeated("&zwnj;")),
]

GROUPS = {"named": NAMED, "blocks": BLOCKS, "inlines": INLINES, "extended": EXTENDED}
