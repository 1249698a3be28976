"""Fragments of real files, each with a few small changes, for tools/measure/formats. Real files show few faults. Fragments that are
slightly wrong find more.

A fragment has 4 to 25 lines of a file. Up to four times a line is left out, put twice, indented, or begun with a marker, or
a sign is put into it.
"""

MARKERS = ['- ', '* ', '+ ', '1. ', '2) ', '> ', '\t', ' ', '  ', '   ', '    ']
SIGNS = ['`', '*', '_', '**', '~~', '<b>', '|', '\\', ' ', '  ', '\t', '[a]', '$']


def change(source, lines):
    """Changes a line, or how many there are."""
    at = source.randrange(len(lines))
    line = lines[at]
    way = source.randrange(6)
    if way == 0:
        del lines[at]
    elif way == 1:
        lines.insert(at, source.choice(['', line]))
    elif way == 2:
        lines[at] = line.lstrip()
    elif way == 3:
        place = source.randrange(len(line) + 1)
        lines[at] = line[:place] + source.choice(SIGNS) + line[place:]
    else:
        lines[at] = source.choice(MARKERS) + line


def fragment(source, texts):
    """Some lines of one of these texts, with changes. `source` is random."""
    lines = source.choice(texts).replace('\r\n', '\n').split('\n')
    count = source.randint(4, 25)
    first = source.randrange(max(1, len(lines) - count))
    lines = lines[first:first + count]
    for _ in range(source.randint(1, 4)):
        if lines:
            change(source, lines)
    return ('\n'.join(lines) + '\n').encode()
