"""A copy of the definitions alone, in one crate, with the examples that are computed from them.

`write_copy(repository, folder, examples)` writes a repository into `folder` that has one crate, `alone`: every file of
`specs/` that these crates of examples use, from whatever crate it stands in, the types that those files name, and the
functions and proofs of the crates of examples. No other function is there, so the crate is checked in seconds.
"""

import os
import re

CRATE = 'alone'
IMPORT = re.compile(r'^(?:pub )?use Rattle\.(\w+)\.(specs|proofs)\.([\w.]+?)(?:\.\{| as |$)', re.M)
OWN_PATH = re.compile(r'Rattle\.(\w+)\.(?=specs\.|proofs\.)')
TYPE = re.compile(r'^pub(?:\([a-z]+\))? (?:enum|struct|type) (\w+)|^(?:enum|struct|type) (\w+)', re.M)


def read(path):
    with open(path, encoding='utf-8') as f:
        return f.read()


def write(path, text):
    os.makedirs(os.path.dirname(path), exist_ok=True)
    with open(path, 'w', encoding='utf-8') as f:
        f.write(text)


def modules_below(folder, ending):
    """The files of a folder by their module paths, as `event.flags` of `event/flags.rt`."""
    found = {}
    for place, _, files in os.walk(folder):
        for name in files:
            if name.endswith(ending):
                path = os.path.join(place, name)
                found[os.path.relpath(path, folder)[: -len(ending)].replace(os.sep, '.')] = path
    return found


class Source:
    """The crates of a repository, where each definition and each type of theirs is, and which crates hold examples."""

    def __init__(self, repository, examples):
        self.examples = examples
        crates = os.path.join(repository, 'crates')
        self.folders = {
            name: os.path.join(crates, name)
            for name in sorted(os.listdir(crates))
            if os.path.isdir(os.path.join(crates, name, 'src'))
        }
        self.specs = {c: modules_below(os.path.join(f, 'specs'), '.antt') for c, f in self.folders.items()}
        self.types = {}
        for crate, folder in self.folders.items():
            for module, path in modules_below(os.path.join(folder, 'src'), '.rt').items():
                if 'test' not in module:
                    self.note_types(crate, module, read(path))

    def note_types(self, crate, module, text):
        for item in TYPE.finditer(text):
            name = item.group(1) or item.group(2)
            self.types.setdefault(name, []).append((crate, module, item_text(text, item.start()) + flags_of(name, text)))


def flags_of(name, text):
    """The named flags of a set of bits, as constants of its type; nothing for any other type."""
    items = re.search(r'^bitflag_items! \{\n    impl %s: \w+ \{\n(.*?)^    \}' % name, text, re.M | re.S)
    flags = re.findall(r'const (\w+) = ([^;]*);', items.group(1)) if items else []
    lines = ['    pub const %s: %s = %s(%s);' % (flag, name, name, bits) for flag, bits in flags]
    return '\nimpl %s {\n%s\n}' % (name, '\n'.join(lines)) if flags else ''


def item_text(text, start):
    """The type that begins here, up to its `;` or its closing bracket, without what is before it."""
    depth = 0
    code = re.sub(r'//[^\n]*', lambda m: ' ' * len(m.group(0)), text)
    for at in range(start, len(code)):
        c = code[at]
        depth += (c in '{(') - (c in '})')
        if depth == 0 and (c == ';' or c == '}'):
            item = re.sub(r'\s*//[^\n]*', '', text[start : at + 1])
            return re.sub(r'^(pub(\([a-z]+\))? )?', 'pub ', item)
    raise ValueError('a type has no end: ' + text[start : start + 40])


def gather(source):
    """The definitions that the examples use, the types that those name, and the libraries of the kit."""
    todo = [(c, m) for c in source.examples for m in source.specs[c] if m != 'Lib']
    for c in source.examples:
        for path in modules_below(os.path.join(source.folders[c], 'proofs'), '.antt').values():
            todo += [(d, m) for d, kind, m in IMPORT.findall(read(path)) if d not in source.folders or kind == 'specs']
    files, types, libraries = {}, set(), set()
    while todo:
        crate, module = todo.pop()
        if crate not in source.folders:
            libraries.add(crate)
        elif module.startswith('declared.'):
            path = module[len('declared.') :].removesuffix('.TheVariants')
            types.add((crate, path.replace('.TheConstants.', '.')))
        elif (crate, module) not in files:
            path = source.specs[crate][module]
            files[crate, module] = path
            todo += [(c, m) for c, _, m in IMPORT.findall(read(path))]
    return files, types, libraries - {'std', 'core'}


def with_parts(source, types):
    """Types with all that their parts are made of: a module and an item for each name."""
    wanted = {}
    todo = []
    for crate, path in types:
        module, name = path.rsplit('.', 1)
        todo.append(next(t for t in source.types[name] if t[0] == crate and t[1] == module) + (name,))
    while todo:
        crate, module, item, name = todo.pop()
        if (module, name) in wanted:
            continue
        wanted[module, name] = item
        for part in set(re.findall(r'\b[A-Z]\w*', item)) - {name}:
            candidates = [t for t in source.types.get(part, []) if t[0] == crate] or source.types.get(part, [])
            same_module = [t for t in candidates if t[1] == module] or candidates
            todo += [t + (part,) for t in same_module[:1] if not is_variant(item, part)]
    return wanted


def is_variant(item, name):
    """A name that an enum gives to a variant of its own, and uses as no type."""
    return re.search(r'^    %s\b' % name, item, re.M) and not re.search(r'[(<:&] ?(?:\'\w+ )?%s\b' % name, item)


def write_types(folder, wanted):
    """A file for each module, with its types and the `use` lines that these need."""
    modules = {module for module, _ in wanted}
    modules |= {m.rsplit('.', n)[0] for m in modules for n in range(1, m.count('.') + 1)}
    homes = {name: module for module, name in wanted}
    for module in modules:
        items = [item for (m, _), item in sorted(wanted.items()) if m == module]
        names = {n for item in items for n in re.findall(r'\b[A-Z]\w*', item)}
        inner = sorted(m for m in modules if m.startswith(module + '.') and m.count('.') == module.count('.') + 1)
        lines = ['pub mod %s;' % m.rsplit('.', 1)[1] for m in inner]
        lines += [
            'use crate::%s::%s;' % (homes[n].replace('.', '::'), n) for n in sorted(names) if n in homes and homes[n] != module
        ]
        roots = {m for item in items for m in re.findall(r'(?<![\w:])([a-z]\w*)::', item)} - {'std'}
        lines += ['use std::%s;' % m for m in sorted(roots)]
        lines += ['use std::borrow::CowStr;' for _ in names & {'CowStr'} if 'CowStr' not in homes]
        write(os.path.join(folder, 'src', module.replace('.', os.sep) + '.rt'), '\n'.join(lines + items) + '\n')
    return sorted(m for m in modules if '.' not in m)


def own(source, text):
    """The same text with the paths of this repository's crates as paths of the one crate."""
    return OWN_PATH.sub(lambda m: 'Rattle.%s.' % CRATE if m.group(1) in source.folders else m.group(0), text)


def write_examples(source, folder, modules):
    """The functions of the crates of examples in one file, and their proofs."""
    heads, bodies, proofs = set(), [], []
    for crate in source.examples:
        text = read(os.path.join(source.folders[crate], 'src', 'lib.rt'))
        heads |= set(re.findall(r'^ghost use [^;]*;', text, re.M))
        bodies.append(re.split(r'^(?=///)', text, maxsplit=1, flags=re.M)[1])
        for module, path in modules_below(os.path.join(source.folders[crate], 'proofs'), '.antt').items():
            if module == 'Lib':
                proofs.append(read(path))
            else:
                write(os.path.join(folder, 'proofs', module.replace('.', os.sep) + '.antt'), own(source, read(path)))
    write(os.path.join(folder, 'proofs', 'Lib.antt'), ''.join(proofs))
    head = '//! Definitions and their examples.\n#![tactic(auto)]\n\n'
    lines = ['pub mod %s;' % m for m in modules] + sorted(own(source, h) for h in heads)
    write(os.path.join(folder, 'src', 'lib.rt'), head + '\n'.join(lines) + '\n\n' + '\n'.join(bodies))


def write_copy(repository, folder, examples):
    """Writes the copy, and answers where each of its files of definitions comes from."""
    source = Source(repository, examples)
    files, types, libraries = gather(source)
    crate = os.path.join(folder, 'crates', CRATE)
    origins = {}
    for (_, module), path in sorted(files.items()):
        name = module + '.antt'
        if name in origins:
            raise ValueError('two files of definitions have one name: %s and %s' % (origins[name], path))
        origins[name] = path
        write(os.path.join(crate, 'specs', name), own(source, read(path)))
    write(os.path.join(crate, 'specs', 'Lib.antt'), ''.join('pub mod %s\n' % n[:-5] for n in sorted(origins)))
    modules = write_types(crate, with_parts(source, types))
    write_examples(source, crate, modules)
    write(os.path.join(folder, 'crates.txt'), '%s: %s\n' % (CRATE, ' '.join(sorted(libraries))))
    return origins
