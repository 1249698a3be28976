"""Six filters, as users of the Python package write them; tools/measure/recipes runs them over real files.

A filter takes the blocks of a page (`tocmark.tree`) and the page, and returns the new blocks of the page. It may change nodes in
place.
"""

import collections
import html
import os
import re
from dataclasses import dataclass
from urllib.parse import urljoin

from tocmark import Node

SITE = 'https://site.example/docs/'
SCHEME = re.compile(r'[A-Za-z][A-Za-z0-9+.-]*:|//|#')
ALERT = re.compile(r'(note|tip|important|warning|caution):\s*', re.IGNORECASE)
INCLUDE = re.compile(r'\{\{#(?:rustdoc_)?include ([^}:]+)(?::([^}]*))?\}\}\n?')
ANCHOR = re.compile(r'ANCHOR(?:_END)?: *([\w-]+)')


@dataclass
class Page:
    """A file of Markdown."""

    path: str
    source: str


def nodes_in(blocks):
    for block in blocks:
        yield from block.walk()


def each_replaced(blocks, change):
    """The blocks, with each node in them replaced by the nodes that `change` returns for it and its parent."""
    top = Node({'Start': 'Paragraph'}, None, blocks)
    for parent in [*top.walk()]:
        parent.children = [new for child in parent.children for new in change(child, parent)]
    return top.children


# Absolute links.

def absolute(url):
    """The address on the site of a relative destination. Any other one stays, and so does an anchor of the page."""
    return urljoin(SITE, url) if url and not SCHEME.match(url) else url


def absolute_links(blocks, _page):
    for node in nodes_in(blocks):
        if node.name in ('Link', 'Image') and node.value['link_type'] not in ('Autolink', 'Email'):
            node.value['dest_url'] = absolute(node.value['dest_url'])
    return blocks


# Headings one level down.

def headings_down(blocks, _page):
    for node in nodes_in(blocks):
        if node.name == 'Heading':
            node.value['level'] = f'H{min(int(node.value["level"][1]) + 1, 6)}'
    return blocks


# A table of contents after the first heading.

def slug(text):
    return re.sub(r'[^\w\- ]', '', text.lower()).replace(' ', '-')


def entries(blocks):
    """The level, the text and the anchor of each heading after the first one, but for those within other blocks."""
    seen = collections.Counter()
    found = []
    for block in blocks:
        text = block.text.replace('\n', ' ').strip()
        if block.name == 'Heading' and text:
            name = slug(text)
            found.append((int(block.value['level'][1]), text, f'#{name}-{seen[name]}' if seen[name] else f'#{name}'))
            seen[name] += 1
    return found[1:]


def table_of_contents(blocks, _page):
    found = entries(blocks)
    if len(found) < 2:
        return blocks
    top = Node({'Start': {'List': None}})
    lists = [(found[0][0], top)]
    for level, text, anchor in found:
        while len(lists) > 1 and lists[-1][0] > level:
            lists.pop()
        if level > lists[-1][0]:
            below = Node({'Start': {'List': None}})
            lists[-1][1].children[-1].children.append(below)
            lists.append((level, below))
        link = {'link_type': 'Inline', 'dest_url': anchor, 'title': '', 'id': ''}
        lists[-1][1].children.append(Node({'Start': 'Item'}, None, [Node({'Start': {'Link': link}}, None, [Node({'Text': text})])]))
    at = next(number for number, block in enumerate(blocks) if block.name == 'Heading' and block.text.strip())
    return [*blocks[:at + 1], top, *blocks[at + 1:]]


# A figure with a caption for each image that is a paragraph of its own.

def html_block(*lines):
    return Node({'Start': 'HtmlBlock'}, None, [Node({'Html': line}) for line in lines])


def caption_of(node):
    """The caption of a paragraph that holds one image and nothing else; otherwise nothing."""
    if node.name == 'Paragraph' and [it.name for it in node.children] == ['Image']:
        image, = node.children
        return (image.value['title'] or image.text).replace('\n', ' ').strip()
    return ''


def figures(blocks, _page):
    def change(node, _parent):
        caption = caption_of(node)
        if not caption:
            return [node]
        return [html_block('<figure>\n'), node, html_block(f'<figcaption>{html.escape(caption)}</figcaption>\n', '</figure>\n')]
    return each_replaced(blocks, change)


# An alert for each paragraph that begins with `NOTE:` or the like.

def alert_of(node, parent):
    """The match of `NOTE:` or the like, if the node is a paragraph that becomes an alert."""
    if node.name == 'Paragraph' and node.children and parent.name != 'BlockQuote':
        first = node.children[0]
        if first.name == 'Text':
            return ALERT.match(first.value)
        if first.name == 'Strong':
            return ALERT.fullmatch(first.text)
    return None


def alerts(blocks, _page):
    def change(node, parent):
        found = alert_of(node, parent)
        if not found:
            return [node]
        first, *rest = node.children
        text = first.value[found.end():] if first.name == 'Text' else ''
        if first.name == 'Strong' and rest and rest[0].name == 'Text':
            first = rest.pop(0)
            text = first.value.lstrip()
        if not text and rest and rest[0].name == 'SoftBreak':
            del rest[0]
        if not text and not rest:
            return [node]
        if text:
            first.event['Text'] = text
            rest.insert(0, first)
        node.children = rest
        return [Node({'Start': {'BlockQuote': found[1].capitalize()}}, None, [node])]
    return each_replaced(blocks, change)


# `{{#include FILE:ANCHOR}}` in code.

def included(path, part, folder):
    """The lines of a file, or of a part of it: an anchor, or line numbers. `None` if there is no such file or anchor."""
    try:
        with open(os.path.join(folder, path.strip()), encoding='utf-8') as file:
            lines = file.read().splitlines()
    except (OSError, UnicodeDecodeError):
        return None
    first, last, wants = 0, len(lines), part or ''
    numbers = re.fullmatch(r'(\d*)(:?)(\d*)', wants)
    if wants and numbers:
        first = int(numbers[1] or 1) - 1
        last = int(numbers[3]) if numbers[3] else last if numbers[2] else first + 1
    elif wants:
        marks = [at for at, line in enumerate(lines) for found in ANCHOR.finditer(line) if found[1] == wants]
        if not marks:
            return None
        first, last = marks[0] + 1, marks[1] if len(marks) > 1 else last
    return [line for line in lines[first:last] if not ANCHOR.search(line)]


def text_included(text, folder):
    """A line of code, or the lines of the file that it includes."""
    found = INCLUDE.fullmatch(text)
    lines = included(found[1], found[2], folder) if found else None
    return text if not lines else ''.join(f'{line}\n' for line in lines)


def includes(blocks, page):
    for node in nodes_in(blocks):
        if node.name == 'CodeBlock':
            for text in node.children:
                text.event['Text'] = text_included(text.value, os.path.dirname(page.path))
    return blocks
