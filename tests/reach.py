"""What the definitions of crates/*/specs and the contracts of crates/*/src name, for tests/believed and tests/promises.
Names are followed through `use` lines; a definition is what stands under one signature, a type of the code what its braces hold."""
import collections
import glob
import os
import re
import sys

os.chdir(os.path.dirname(os.path.abspath(__file__)) + '/..')
KINDS = [('paper', r'-- Document 0[12], .+'), ('theorems', r'-- Theorems: .+'), ('cases', r'-- Cases: .+'),
         ('code', r'-- Follows the code; nothing to believe: .+')]
MODIFIERS = r'(?:(?:pub|abbrev|unfoldable|opaque|transparent|private|inductive)\s+)*'
SEPARATORS = re.compile(r'[\s(){};,]+')


class Definition:
    def __init__(self, crate, file, name, kind):
        self.crate, self.file, self.name, self.kind, self.lines = crate, file, name, kind, []

    def place(self):
        return (self.crate, self.file)


def without_comment(line):
    m = re.search(r'(^|\s)--(\s|$)', line)
    return line[:m.start()] if m else line


def imported(text, uses):
    """Adds what a `use` line names: local name -> (crate, file, name)."""
    m = re.match(r'([^\s{]+?)\.?(?:\{(.*)\})?;?\s*$', text)
    module, names = m.group(1), m.group(2)
    ours = re.match(r'Rattle\.([a-z_0-9]+)\.specs\.(.*)$', module)
    if ours and names is None and os.path.isdir(f'crates/{ours.group(1)}'):
        sys.exit(f'reach: {text}: a whole module is imported, whose names are not followed: import each by its name')
    if names is None or not ours:
        return
    for n in filter(None, (x.strip() for x in names.split(','))):
        own, local = (x.strip() for x in n.split(' as ')) if ' as ' in n else (n, n)
        uses[local] = (ours.group(1), ours.group(2), own)


class SpecFile:
    """The imports and the definitions of a file of specs, and the kind that its first line gives."""

    def __init__(self, path, crate, name):
        self.path, self.uses, self.named, self.definitions = path, {}, {}, []
        raw = open(path, encoding='utf-8').read().split('\n')
        self.first = raw[0]
        self.kind = next((k for k, pattern in KINDS if re.match(pattern, raw[0])), None)
        self.quotes = [i + 1 for i, line in enumerate(raw) if '--' in line and re.search(r'(^|\s)--\s.*"', line)]
        i, current = 0, None
        while i < len(raw):
            line = without_comment(raw[i])
            i += 1
            if not line.strip() or re.match(r'^\s*pub mod\s', line):
                continue
            m = re.match(r'^\s*' + MODIFIERS + r'use\s+(.*)$', line)
            if m:
                text = m.group(1)
                while text.count('{') > text.count('}'):
                    text += ' ' + without_comment(raw[i])
                    i += 1
                imported(text, self.uses)
                continue
            if re.match(r'^module\s+_', line):
                current = None
                continue
            indent = len(line) - len(line.lstrip())
            m = re.match(r'^' + MODIFIERS + r'(record|data)\s+(\S+)', line)
            if not m and (indent == 0 or indent == 2 and re.match(r'^  (?:unfoldable|abbrev)\s', line)):
                m = re.match(r'^\s*' + MODIFIERS + r'()(\S+)(?:\s+\{[^}]*\})?\s*:(?:\s|$)', line)
            if m:
                current = Definition(crate, name, m.group(2), m.group(1) or 'function')
                self.named[current.name] = current
                self.definitions.append(current)
            elif current is None:
                sys.exit(f'believed: {path}: a line of no definition: {line}')
            elif current.kind == 'data':
                c = re.match(r'^\s+(?:pub )?(\S+)\s*:', line)
                if c:
                    self.named.setdefault(c.group(1), current)
            current.lines.append(line)


files = {}
for path in sorted(glob.glob('crates/*/specs/**/*.antt', recursive=True)):
    crate, rest = re.match(r'crates/(\w+)/specs/(.*)\.antt', path).groups()
    if rest != 'Lib':
        files[(crate, rest.replace('/', '.'))] = SpecFile(path, crate, rest.replace('/', '.'))

# The types that the code declares: what their fields are.
declared = {}
for path in sorted(glob.glob('crates/*/src/*.rt')):
    crate, current = path.split('/')[1], None
    for line in open(path, encoding='utf-8'):
        m = re.match(r'^(?:pub )?(struct|enum)\s+(\w+)', line)
        if m:
            current = Definition(crate, 'src', m.group(2), 'declared')
            current.path = path
            declared[(crate, m.group(2))] = current
        if current:
            text = line.split('//')[0].rstrip()
            if text and not text.startswith('#'):
                current.lines.append(text)
            if line.startswith('}'):
                current = None


def found(crate, file, name, depth=0):
    if file.startswith('declared.'):
        parts = file.split('.')
        return next((declared[(crate, p)] for p in parts[1:] if (crate, p) in declared), None)
    if (crate, file) not in files:
        return None
    f = files[(crate, file)]
    if name in f.named:
        return f.named[name]
    return found(*f.uses[name], depth + 1) if name in f.uses and depth < 5 else None


def named_by(lines, uses, own):
    """The definitions that some lines name."""
    for line in lines:
        for word in SEPARATORS.split(line):
            word = word.lstrip('λ')
            for candidate in (word, '◌' + word + '◌', word.split('.')[0]):
                if candidate in own:
                    yield own[candidate]
                    break
                if candidate in uses:
                    yield found(*uses[candidate])
                    break


def reached(starts):
    seen, todo = {}, list(starts)
    while todo:
        d = todo.pop()
        if d is None or id(d) in seen:
            continue
        seen[id(d)] = d
        if d.kind == 'declared':
            words = set(re.findall(r'\b[A-Z]\w+\b', '\n'.join(d.lines)))
            todo += [x for (c, n), x in declared.items() if n in words and x is not d]
        else:
            f = files[d.place()]
            todo += named_by(d.lines, f.uses, f.named)
    return seen


# A function, or a method of an impl: the brace of its body stands in the column where it begins.
FUNCTION = re.compile(r'^( *)(pub )?(?:unsafe )?(?:extern "C" )?fn (\w+)(.*?)^\1(\{\}$|\{|\}$)', flags=re.M | re.S)


def headers(path):
    """The parameters and the clauses of each function of a file, by its name, whatever their layout."""
    text = re.sub(r'//.*', '', open(path, encoding='utf-8').read())
    return {m.group(3): re.sub(r',?\s+\)', ')', re.sub(r'\(\s+', '(', ' '.join(m.group(4).split()))) for m in FUNCTION.finditer(text)}


def contracts(path):
    """For each function of a file: its name, whether its body is empty, whether it is public, and the definitions that its clauses cite.
    The name of a parameter is no citation, even where a definition has it too."""
    text = open(path, encoding='utf-8').read()
    uses = {}
    for m in re.finditer(r'^ *ghost use ([^;]*);', text, flags=re.M):
        imported(re.sub(r'\s+', ' ', m.group(1)), uses)
    for m in FUNCTION.finditer(text):
        signature, _, clauses = re.sub(r'(\brequires|\bensures)\b', r'\0\1', m.group(4), count=1).partition('\0')
        given = set(re.findall(r'(\w+)\s*:(?!:)', signature))
        known = {name: d for name, d in uses.items() if name not in given}
        cited = [d for d in named_by([re.sub(r'//.*', '', clauses).replace('\n', ' ')], known, {}) if d is not None]
        yield m.group(3), m.group(5) == '{}', bool(m.group(2)), cited
