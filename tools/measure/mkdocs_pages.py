"""What Python-Markdown makes of the pages of MkDocs before and after they are formatted; formats --python-markdown calls it.

A tree is a folder with a mkdocs.yml. Its pages are the Markdown files below its docs_dir. The formatter is called as a user
calls it: in a copy of the tree, with the folder of the pages, and with no option but the style, so that mkdocs.yml counts.
Python-Markdown gets the extensions of mkdocs.yml and those that MkDocs always has. An extension, or a function that
mkdocs.yml names, that is not installed is left out. Code that mkdocs.yml names is called, as MkDocs does.
"""

import importlib
import os
import re
import shutil
import subprocess
import tempfile

try:
    import markdown
    import yaml
except ImportError:
    markdown = yaml = None

ALWAYS = ['toc', 'tables', 'fenced_code']
# white space in these is shown as it is
KEPT = re.compile(r'(<(pre|textarea|script|style)\b.*?</\2>)', re.S)
# HTML ignores white space beside the tags of these
BLOCKS = ('address|article|aside|blockquote|body|br|caption|center|col|colgroup|dd|details|dir|div|dl|dt|fieldset|figcaption|figure|'
          'footer|form|h[1-6]|head|header|hr|html|iframe|legend|li|link|main|menu|nav|ol|p|section|summary|table|tbody|td|tfoot|th|'
          'thead|title|tr|ul')
BESIDE = re.compile(rf'\s*(</?(?:{BLOCKS})\b[^<>]*>)\s*', re.I)
MISSING = object()


def found(name):
    """What a dotted name means in Python."""
    module, _, it = name.rpartition('.')
    return getattr(importlib.import_module(module), it)


def loader(missing):
    """A reader of mkdocs.yml that notes the names that mean nothing here."""
    class Loader(yaml.SafeLoader):
        """SafeLoader with the tags of MkDocs."""

    def named(_loader, name, _node):
        try:
            return found(name)
        except (ImportError, AttributeError):
            missing.add(name)
            return MISSING

    def applied(reader, name, node):
        function = named(reader, name, node)
        words = reader.construct_mapping(node, deep=True)
        return MISSING if function is MISSING else function(*words.get('args', ()), **words.get('kwds', {}))

    Loader.add_multi_constructor('tag:yaml.org,2002:python/name:', named)
    Loader.add_multi_constructor('tag:yaml.org,2002:python/object/apply:', applied)
    Loader.add_multi_constructor('!', lambda *_: MISSING)
    return Loader


def without_missing(it):
    if isinstance(it, dict):
        return {key: without_missing(value) for key, value in it.items() if value is not MISSING}
    return [without_missing(one) for one in it if one is not MISSING] if isinstance(it, list) else it


def renderer(root, missing):
    """Python-Markdown with the extensions of a tree, and the folder of its pages."""
    with open(os.path.join(root, 'mkdocs.yml'), encoding='utf-8') as file:
        said = without_missing(yaml.load(file, loader(missing)) or {})
    configs = {name: {} for name in ALWAYS}
    for it in said.get('markdown_extensions') or []:
        configs.update({name: config or {} for name, config in (it.items() if isinstance(it, dict) else [(it, {})])})
    names = []
    for name, config in configs.items():
        try:
            markdown.Markdown(extensions=[name], extension_configs={name: config})
            names.append(name)
        except (ImportError, AttributeError, KeyError, ValueError, TypeError) as wrong:
            missing.add(f'{name} ({type(wrong).__name__})' if not isinstance(wrong, ImportError) else name)
    return markdown.Markdown(extensions=names, extension_configs=configs), said.get('docs_dir', 'docs')


def as_shown(html):
    """An HTML without the white space that HTML ignores."""
    parts = KEPT.split(html)
    del parts[2::3]
    parts[::2] = [BESIDE.sub(r'\n\1\n', re.sub(r'[ \t\r\n]+', ' ', it)) for it in parts[::2]]
    return re.sub(r'\n+', '\n', ''.join(parts))


class Pages:
    """The pages of some trees, and what Python-Markdown made of them as they were."""

    def __init__(self, program, front, folders):
        self.program, self.front = program, front
        self.missing, self.html = set(), {}
        self.roots = []
        for folder in folders:
            for at, below, names in os.walk(os.path.abspath(folder)):
                below[:] = sorted(it for it in below if it not in ('.git', 'node_modules'))
                if 'mkdocs.yml' in names:
                    self.roots.append(at)

    def made(self, reader, text):
        """What Python-Markdown makes of a page, or the name of the error."""
        reader.reset()
        try:
            return reader.convert(text[len(self.front(text)):].decode())
        except Exception as wrong:  # pylint: disable=broad-exception-caught
            return f'{type(wrong).__name__}: {wrong}'

    def texts(self, folder):
        for at, below, names in os.walk(folder):
            below.sort()
            for name in sorted(names):
                if name.lower().endswith(('.md', '.markdown')):
                    with open(os.path.join(at, name), 'rb') as file:
                        yield os.path.relpath(os.path.join(at, name), folder), file.read()

    def judged(self, root, style):
        """Of each page of a tree: its path, whether it changed, its HTML as it was and as it is after formatting."""
        with tempfile.TemporaryDirectory() as room:
            copy = os.path.join(room, 'tree')
            shutil.copytree(root, copy, symlinks=True, ignore=shutil.ignore_patterns('.git', 'node_modules'))
            here = os.getcwd()
            os.chdir(copy)
            try:
                reader, docs = renderer('.', self.missing)
                old = dict(self.texts(docs))
                for path, text in old.items():
                    if (root, path) not in self.html:
                        self.html[root, path] = self.made(reader, text)
                done = subprocess.run([self.program, '--quiet', '--no-sync', *style, docs], stdin=subprocess.DEVNULL,
                                      capture_output=True, text=True, check=False)
                if done.returncode:
                    raise ValueError(f'status {done.returncode}: {done.stderr[:300]}')
                for path, text in self.texts(docs):
                    is_same = text == old[path] and b'-8<-' not in text
                    one = self.html[root, path]
                    yield os.path.join(root, docs, path), text != old[path], one, one if is_same else self.made(reader, text)
            finally:
                os.chdir(here)

    def report(self, style, note):
        """The lines that say what became of the pages in a style; note hears of each page with other HTML."""
        pages = changed = other = 0
        for root in self.roots:
            for path, is_changed, one, two in self.judged(root, style):
                pages += 1
                changed += is_changed
                one, two = as_shown(one), as_shown(two)
                if one != two:
                    other += 1
                    note('other HTML by Python-Markdown', path, one, two)
        return [f'{changed:6} of {pages} pages of {len(self.roots)} trees with a mkdocs.yml changed',
                f'{other:6} have other HTML by Python-Markdown {markdown.__version__} with their extensions'] + \
               [f'       left out, because not installed: {", ".join(sorted(self.missing))}'] * bool(self.missing)
