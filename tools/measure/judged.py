"""Judges whether a filter of tools/measure/filters.py changed a page as it should, and nothing else. tools/measure/recipes uses it.

For each filter, a function lists the parts of the source that the edit may change: start, end, and the new bytes or a test of
them. All bytes between these parts have to stay. A new block may be in the white space between its neighbours, with a blank
line more on each side. The new page also has to mean the right thing to cmark-gfm: its XML is that of the source, with the same
edit made in the XML.
"""

import copy
import difflib
import os
import re
import subprocess
from dataclasses import dataclass
from xml.etree import ElementTree

import filters
import tocmark
from tocmark import Node

NEW = 'A new paragraph.'
CMARK = ['cmark-gfm', '--to', 'xml', *(word for name in ('table', 'strikethrough', 'tasklist', 'footnotes') for word in ('-e', name))]
CONTROLS = re.compile(rb'[\x00-\x08\x0b\x0c\x0e-\x1f]')
SPACE = re.compile(rb'[ \t\r\n]*')
MARK = re.compile(rb'(?i)^(?:(\*\*|__)(note|tip|important|warning|caution):\s*\1|(note|tip|important|warning|caution):)\s*')


# The parts of the source that an edit may change.

def without_blanks(text):
    return re.sub(rb'[ \t]+\n', b'\n', text)


def keeps(space):
    """A test: the white space is still there, before or after what was put into it. Blanks on empty lines don't count."""
    space = without_blanks(space)
    return lambda text: without_blanks(text).startswith(space) or without_blanks(text).endswith(space)


def blank_lines(text):
    """How many lines have blanks and nothing else."""
    return len(re.findall(rb'(?m)^[ \t]+$', text))


def space_after(source, at):
    end = SPACE.match(source, at).end()
    return at, end, keeps(source[at:end])


def space_before(source, at):
    start = at - len(SPACE.match(source[:at][::-1])[0])
    return start, at, keeps(source[start:at])


def end_of(source, place):
    """The place after the last byte of a block that is no white space."""
    return place.start + len(source[place.start:place.stop].rstrip())


def destination(source, node, old):
    """Where the destination of a link is, or that of its label's definition, if it is spelled just so; otherwise -1."""
    if node.value['link_type'] == 'Inline':
        at = source.rfind(old, node.range.start, node.range.stop)
        while at > 0 and source[at - 1] not in b'(< \t\n':
            at = source.rfind(old, node.range.start, at)
        return at
    label = rb'\s+'.join(re.escape(word) for word in node.value['id'].encode().split())
    definitions = re.finditer(rb'(?im)^[ \t>*+\-0-9.)]*\[\s*' + label + rb'\s*\]:\s*<?', source)
    return next((it.end() for it in definitions if source.startswith(old, it.end())), -1)


def links_told(source, blocks, _page):
    told = set()
    for node in filters.nodes_in(blocks):
        if node.name in ('Link', 'Image') and node.value['link_type'] not in ('Autolink', 'Email'):
            old = node.value['dest_url'].encode()
            new = filters.absolute(old.decode()).encode()
            if new != old:
                at = destination(source, node, old)
                told.add((at, at + len(old), new) if at >= 0 else (node.range.start, node.range.stop, None))
    return [(first, last, new if new is not None else lambda text: True) for first, last, new in sorted(told, key=lambda it: it[:2])]


def headings_told(source, blocks, _page):
    told = []
    for node in filters.nodes_in(blocks):
        if node.name == 'Heading' and node.value['level'] != 'H6':
            start, end = node.range.start, end_of(source, node.range)
            text, _, underline = source[start:end].rpartition(b'\n')
            underline = underline.lstrip(b' \t>')
            if source[start:start + 1] == b'#' and not text:
                told.append((start, start, b'#'))
            elif underline[:1] == b'=':
                told.append((end - len(underline), end, lambda new: re.fullmatch(rb'-+', new)))
            else:
                words = b' '.join(text.split())
                told.append((start, end, lambda new, words=words: b' '.join(new.split()) == b'### ' + words))
    return told


def contents_told(source, blocks, _page):
    first = next(block for block in blocks if block.name == 'Heading' and block.text.strip())
    return [space_after(source, end_of(source, first.range))]


def figures_told(source, blocks, _page):
    told = []
    for node in filters.nodes_in(blocks):
        if filters.caption_of(node):
            told += [space_before(source, node.range.start), space_after(source, end_of(source, node.range))]
            if node is blocks[0]:
                told.append(space_after(source, 0))
    return told


def alert_lines(text):
    """The lines of a paragraph or of an alert, without `NOTE:`, `[!NOTE]` and the marks of quotes."""
    lines = [re.sub(rb'^[ \t>]*', b'', line).rstrip() for line in text.split(b'\n')]
    lines = [line for line in lines if not re.fullmatch(rb'\[![A-Z]+\]', line)]
    lines[:1] = [MARK.sub(b'', line) for line in lines[:1]]
    return [line for line in lines if line]


def alerts_told(source, blocks, _page):
    told = []
    for parent in filters.nodes_in([Node({'Start': 'Paragraph'}, None, blocks)]):
        for node in parent.children:
            if filters.alert_of(node, parent):
                start, end = node.range.start, end_of(source, node.range)
                start -= len(source[:start]) - len(source[:start].rstrip(b' '))
                lines = alert_lines(source[start:end])
                told.append((start, end, lambda new, lines=lines: alert_lines(new) == lines))
    return told


def includes_told(source, blocks, page):
    told = []
    for block in filters.nodes_in(blocks):
        for node in block.children if block.name == 'CodeBlock' else ():
            new = filters.text_included(node.value, os.path.dirname(page.path))
            if new != node.value:
                lines = new.encode().splitlines()
                told.append((node.range.start, node.range.stop, lambda text, lines=lines: are_lines(text, lines)))
    return told


def are_lines(text, lines):
    """Whether a text has these lines, each after the marks of its containers."""
    found = text.splitlines()
    return len(found) == len(lines) and all(it.endswith(line) for it, line in zip(found, lines))


def top_told(source, blocks):
    """The paragraph at the top comes after the front matter, before or after the definitions there."""
    has_front = blocks[0].name == 'MetadataBlock'
    following = blocks[has_front:]
    told = [space_after(source, end_of(source, blocks[0].range) if has_front else 0)]
    if following and source[told[0][1]:following[0].range.start].strip():
        told.append(space_before(source, following[0].range.start))
    return told


def in_turn(one, other):
    """Whether the first part of a text passes one test, and the rest the other."""
    return lambda text: any(one(text[:at]) and other(text[at:]) for at in range(len(text) + 1))


def is_as_told(source, text, told):
    """Whether the text is the source with nothing but these parts changed. A part that begins within another belongs to that."""
    literals, tests, at = [b''], [], 0
    for start, end, new in sorted(told, key=lambda it: (it[0], it[1], isinstance(it[2], bytes))):
        if start < at:
            continue
        literals[-1] += source[at:start]
        if isinstance(new, bytes):
            literals[-1] += new
        elif tests and not literals[-1]:
            tests[-1] = in_turn(tests[-1], new)
        else:
            literals.append(b'')
            tests.append(new)
        at = end
    literals[-1] += source[at:]
    if not text.startswith(literals[0]):
        return False
    at = len(literals[0])
    for number, (test, literal) in enumerate(zip(tests, literals[1:]), 1):
        start = max(at, len(text) - len(literal)) if number == len(tests) else text.find(literal, at)
        if start < at or not text.startswith(literal, start) or not test(text[at:start]):
            return False
        at = start + len(literal)
    return at == len(text)


def lines_beyond(source, text, told):
    """How many lines of the source are gone from outside these parts, and the first of them that isn't empty. If none is gone: the
    first lines that differ."""
    own = set()
    for start, end, _ in told:
        first = source.count(b'\n', 0, start)
        own.update(range(first, first + source.count(b'\n', start, max(end - 1, start)) + 1))
    before, after = source.split(b'\n'), text.split(b'\n')
    steps = difflib.SequenceMatcher(None, before, after, autojunk=False).get_opcodes()
    gone = [at for kind, first, past, _, _ in steps if kind != 'equal' for at in range(first, past) if at not in own]
    others = [(before[first:past], after[start:end]) for kind, first, past, start, end in steps if kind != 'equal']
    return len(gone), next((repr(before[at]) for at in gone if before[at].strip(b' \t>')), '' if gone else repr(others[:1]))


# The same edits in the XML of cmark-gfm.

def tree_of(data, skipped):
    """The XML of a page without its front matter."""
    done = subprocess.run(CMARK, input=CONTROLS.sub(b'', data[skipped:]), capture_output=True, check=True)
    words = re.sub(r' xmlns="[^"]*"', '', done.stdout.decode(errors='replace')).replace('<unknown>', 'unknown')
    return ElementTree.fromstring(re.sub('[\ufffe\uffff]', '', words))


def joined(root):
    """The XML in one spelling."""
    for node in root.iter():
        texts = []
        for child in node:
            if child.tag == 'text' and texts and texts[-1].tag == 'text':
                texts[-1].text = (texts[-1].text or '') + (child.text or '')
            else:
                texts.append(child)
            child.tail = None
        node[:] = [it for it in texts if it.tag != 'text' or it.text]
        if len(node):
            node.text = None
    return ElementTree.tostring(root)


def parents(root):
    return [(node, child) for node in root.iter() for child in node]


def links_in_xml(before, after, _page):
    for node in before.iter():
        if node.tag in ('link', 'image'):
            node.set('destination', filters.absolute(node.get('destination')))


def headings_in_xml(before, after, _page):
    for node in before.iter('heading'):
        node.set('level', str(min(int(node.get('level')) + 1, 6)))


def contents_in_xml(before, after, page):
    """Takes off the first block that isn't in the source, if it is the list with the words and the anchors of the headings."""
    wanted = filters.entries(page.blocks())
    for at, node in enumerate(after):
        if at >= len(before) or ElementTree.tostring(node) != ElementTree.tostring(before[at]):
            leads = [(''.join(link.itertext()).replace('\n', ' ').strip(), link.get('destination')) for link in node.iter('link')]
            if node.tag == 'list' and leads == [(text, anchor) for _, text, anchor in wanted]:
                after.remove(node)
            return


def figures_in_xml(before, after, _page):
    for root in (before, after):
        for node, child in parents(root):
            if child.tag == 'html_block' and re.match('<figure>|<figcaption>', child.text):
                node.remove(child)


def words_of(node):
    return ''.join(node.itertext())


def alert_in_xml(node):
    """Makes an alert of a paragraph, as `alerts` does."""
    first = node[0]
    kind = filters.ALERT.match(words_of(first))[1].upper()
    if first.tag == 'strong':
        node.remove(first)
        if len(node) and node[0].tag == 'text':
            node[0].text = node[0].text.lstrip()
    else:
        first.text = first.text[filters.ALERT.match(first.text).end():]
    if len(node) and node[0].tag == 'text' and not node[0].text:
        node.remove(node[0])
    if len(node) and node[0].tag == 'softbreak':
        node.remove(node[0])
    mark, break_ = ElementTree.Element('text'), ElementTree.Element('softbreak')
    mark.text = f'[!{kind}]'
    mark.set('{http://www.w3.org/XML/1998/namespace}space', 'preserve')
    node[:0] = [mark, break_]


def alerts_in_xml(before, after, _page):
    joined(before)
    tight = {child for node in before.iter('list') if node.get('tight') == 'true' for child in node}
    for node, child in parents(before):
        if child.tag != 'paragraph' or node.tag == 'block_quote' or node in tight or not len(child):
            continue
        first = child[0]
        if first.tag == 'text' and filters.ALERT.match(first.text) or first.tag == 'strong' and filters.ALERT.fullmatch(words_of(first)):
            if len(child) > 1 or filters.ALERT.sub('', words_of(child), count=1).strip():
                alert_in_xml(child)
                quote = ElementTree.Element('block_quote')
                node[[*node].index(child)] = quote
                quote.append(child)


def includes_in_xml(before, after, page):
    for node in before.iter('code_block'):
        lines = (node.text or '').splitlines(keepends=True)
        node.text = ''.join(filters.text_included(line, os.path.dirname(page.path)) for line in lines)


def take_off_top(after):
    """Takes the new paragraph off."""
    for node in after:
        if node.tag == 'paragraph' and words_of(node).strip() == NEW:
            after.remove(node)
            return


FILTERS = [
    ('absolute links', filters.absolute_links, links_told, links_in_xml),
    ('headings down', filters.headings_down, headings_told, headings_in_xml),
    ('table of contents', filters.table_of_contents, contents_told, contents_in_xml),
    ('figures', filters.figures, figures_told, figures_in_xml),
    ('alerts', filters.alerts, alerts_told, alerts_in_xml),
    ('includes', filters.includes, includes_told, includes_in_xml),
]


# What becomes of a page.

@dataclass(frozen=True)
class Outcome:
    kind: str
    #: How many lines changed beyond the edit.
    lines: int
    #: The file, and what is wrong there.
    what: str


class File(filters.Page):
    """A page with its events."""

    def __init__(self, path, data):
        super().__init__(path, data.decode())
        self.data = data
        self.events = tocmark.read(self.source)
        first = self.blocks()[:1]
        self.front = end_of(data, first[0].range) if first and first[0].name == 'MetadataBlock' else 0

    def blocks(self):
        return tocmark.tree(copy.deepcopy(self.events), self.source)


def outcomes(path, data):
    """What becomes of a file by each filter, alone and with a paragraph put in; `None` if the filter changes nothing."""
    file = File(path, data)
    return [outcome(file, *filter_, has_paragraph) for _, *filter_ in FILTERS for has_paragraph in (False, True)]


def outcome(file, change, tell, edit_xml, has_paragraph):
    blocks = change(file.blocks(), file)
    events = [pair for block in blocks for pair in block.events()]
    if [event for event, _ in events] == [event for event, _ in file.events]:
        return None
    told = tell(file.data, file.blocks(), file)
    if has_paragraph:
        at = sum(len(block.events()) for block in blocks[:1]) if file.front else 0
        events[at:at] = Node({'Start': 'Paragraph'}, None, [Node({'Text': NEW})]).events()
        told += top_told(file.data, file.blocks())
    try:
        text = tocmark.rewrite(file.source, events).encode()
    except tocmark.Error as error:
        why = re.sub(r'^(event \d+)?(, )?(lines? \d+( to \d+)?)?(: )?', '', str(error))
        return Outcome(f'refused: {why}', 0, f'{file.path}: {error}')
    lines, line = (0, '') if is_as_told(file.data, text, told) else lines_beyond(file.data, text, told)
    try:
        is_same = is_same_for_cmark(file, text, edit_xml, has_paragraph)
    except ElementTree.ParseError:
        return Outcome('no XML of cmark-gfm', lines, f'{file.path}: {line}')
    if not is_same:
        kind = 'other XML'
    elif lines:
        kind = 'lines beyond the edit' if line else 'other empty lines beside a new block'
    elif line:
        kind = 'other spelling in the lines of the edit'
    elif blank_lines(text) > blank_lines(file.data):
        kind = 'blanks on an empty line beside a new block'
    else:
        return Outcome('as wanted', 0, '')
    return Outcome(kind, lines, f'{file.path}: {line}')


def is_same_for_cmark(file, text, edit_xml, has_paragraph):
    """Whether cmark-gfm's XML of a text is that of the file with the edit made in it."""
    if not text.startswith(file.data[:file.front]):
        return False
    before, after = (tree_of(data, file.front) for data in (file.data, text))
    if has_paragraph:
        take_off_top(after)
    edit_xml(before, after, file)
    return joined(before) == joined(after)
