#!/usr/bin/env python3
"""Every name that docs/CLAIMS.md and docs/landings/*.md cite exists.

A name is cited in backquotes. Where a crate's name leads to it in the same table cell or line, it is a name of that crate: of a file in specs/,
proofs/ or src/ (`Module.name`, `module::name`), a field or a case of a type (`Type.field`), a function, a definition, an edit or a file.
Prints each name that is not there and ends with 1; else says how many were looked up.
"""
import glob, os, re, sys

root = os.path.join(os.path.dirname(os.path.abspath(__file__)), '..')
os.chdir(root)
crates = sorted(os.path.basename(d.rstrip('/')) for d in glob.glob('crates/*/'))
# what may stand between a crate's name and the first name cited of it
LEADS = r"'?s? ?(?:(?:'s|,|the|its|of|contracts?|theorems?|laws?|edits?|records?|fields?|definitions?|tests?) )*`"
NAME = r"[^\s(){}\[\];,.«»λ→`|\"]+"


class Crate:
    def __init__(self, name):
        self.names = set()          # every name
        self.inside = {}            # a module's or a type's name: what is defined in it
        for path in glob.glob(f'crates/{name}/**/*', recursive=True):
            if os.path.isdir(path):
                self.names.add(os.path.basename(path))
                continue
            base, kind = os.path.splitext(os.path.basename(path))
            self.names.add(base)
            self.names.add(os.path.basename(path))
            if kind == '.antt':
                self.antt(path, base)
            elif kind == '.rt':
                self.rt(path, base)

    def add(self, place, name):
        name = name.strip('«»')
        self.names.add(name)
        self.inside.setdefault(place, set()).add(name)

    def antt(self, path, module):
        kind = None
        for line in open(path, encoding='utf-8'):
            line = line.rstrip('\n')
            m = re.match(r'\s*(?:pub )?(?:record|data) (' + NAME + ')', line)
            if m:
                kind = m.group(1)
                self.add(module, kind)
                continue
            m = re.match(r'(\s*)(?:abbrev |unfoldable )*(?:pub )?(?:abbrev |unfoldable )*((?:' + NAME + r'\s+)*?' + NAME + r') :(?:\s|$)', line)
            if m:
                if not m.group(1):
                    kind = None
                for name in m.group(2).split():
                    self.add(module, name)
                    if kind:
                        self.add(kind, name)

    def rt(self, path, module):
        kind = None
        with open(path, encoding='utf-8') as f:
            text = f.read()
        # what a use line brings by a list: a module of the path has it too
        for path_of, items in re.findall(r'(?m)^\s*(?:pub )?use ([A-Za-z0-9_:]+)::\{([^}]*)\}', text):
            for item in re.findall(r'[A-Za-z0-9_]+', items):
                self.add(module, item)
                self.add(path_of.split('::')[-1], item)
        for line in text.split('\n'):
            m = re.match(r'(\s*)(?:pub )?(?:extern "C" )?(fn|struct|enum|const|type|mod|impl|use) ([A-Za-z0-9_:]+)', line)
            if m:
                word, name = m.group(2), m.group(3).rstrip(":").split("::")[-1]
                self.add(module, name)
                if word in ('struct', 'enum', 'impl'):
                    kind = name
                elif kind and m.group(1):
                    self.add(kind, name)
                continue
            m = re.match(r'\s+(?:pub )?([A-Za-z0-9_]+)(?::|\(|,)', line)
            if m and kind:
                self.add(kind, m.group(1))

    def has(self, name):
        parts = [p.strip('«»') for p in re.split(r'::|\.', name) if p]
        if len(parts) == 1:
            return parts[0] in self.names
        return all(b in self.inside.get(a, ()) or (a in self.names and b in self.names and os.path.sep not in a and self.module(a, b))
                   for a, b in zip(parts, parts[1:]))

    def module(self, a, b):
        """b is a module or a folder in a"""
        return a not in self.inside and b in self.names


made = {c: Crate(c) for c in crates}
files = {os.path.relpath(p) for p in glob.glob('**/*', recursive=True) if not p.startswith('target')} | {'.ci/run'}


def there(token, crate):
    if token in made or token in files or token.rstrip('/') in files or os.path.exists(token):
        return True
    if crate:
        return made[crate].has(token)
    return any(c.has(token) for c in made.values())


def wanted(token):
    """the names in a piece of code: the whole where it is one name, else those that can't be plain words"""
    if re.fullmatch(r"[\w'’₀-₉←-⇿∀-⋿-]+(?:(?:::|\.)[\w'’-]+)*", token):
        return [token]
    return [w for w in re.findall(r"[A-Za-z][\w'-]*(?:(?:::|\.)[A-Za-z][\w'-]*)*", token) if re.search(r'\w[-_:]\w', w)]


looked, missing = 0, []
for doc in ['docs/CLAIMS.md', *sorted(glob.glob('docs/landings/*.md'))]:
    if not os.path.exists(doc):
        missing.append((doc, 0, 'the document itself', None))
        continue
    for n, line in enumerate(open(doc, encoding='utf-8'), 1):
        for cell in line.split('|'):
            crate = None
            for m in re.finditer(r'`([^`]+)`|([A-Za-z_][A-Za-z0-9_]*)|("[^"]*")|([;:.])(?=\s)', cell):
                token, word, quote, stop = m.groups()
                if word in made and re.match(LEADS, cell[m.end():]):
                    crate = word
                elif stop == ';' or stop == '.':
                    crate = None
                elif token:
                    for name in wanted(token):
                        looked += 1
                        if not there(name, crate):
                            missing.append((doc, n, name, crate))
for doc, n, name, crate in missing:
    print(f'{doc}:{n}: no {name}' + (f' in {crate}' if crate else ''))
if missing:
    sys.exit(1)
print(f'names: {looked} cited, all there')
