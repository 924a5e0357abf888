#!/usr/bin/env python3
"""Lists the places of docs/DESIGN-PASS.md's points in crates/*/src, by the patterns of tools/forms.sh, each with the reason that stands beside it.

  tools/places.py [--top FOLDER] [--open] [--count] [ROW..]

A reason is a comment `// Kept (KIND): ..` above the item (function, struct, impl, constant) or inside it before the place; or in the comment at
the head of the file, and then it holds for the file. KIND: C (the C interface), 01 or 02 (a rule of the project), speed, proof (both: tried), plain
(the new form is no plainer). --open lists the places with no reason; --count prints a table."""
import glob
import os
import re
import sys

LINES = {
    '1d': r'^\s*(pub )?(refusal|answer): ',
    '1e': r'^ +(pub )?(given|known|[a-z_]+_given|has_[a-z_]+|by_headings): bool,',
    '1f': r'\b(kind|mode|code|number|part|phase|unit|source|which|list|what): u(8|32|64)\b',
    '1g': r'^(pub )?const [A-Z_0-9]+_KIND: u32|^pub const (UNREAD|POINTER|KEYS|SUMS|TOUCHES|WHEEL): u8',
    '1h': r'if \(?e == 0|let e = find',
    '2b': r'^ *(pub )?fn (at_most|shorter|larger|smaller|least|most|wide|long|low|high|upper|byte|joined|place)\((n|a|b|x|w|limit|low|d|id|h)?[^&]*\) ->',
    '2c': r'^ *(pub )?fn ([a-z_]+_given|[a-z_]+_or|[a-z_]+_or_zero|is_some|is_none|or_else|first|is_(place|vec|time|info))\(',
    '3a': r'^\s*while ',
    '3b': r'^\s*(i|j|k|s|l|n|at|p|e|m|left) (\+|-)= (1|[A-Z_]+);',
    '4a': r'^ *(pub )?fn (number|of|[a-z_]+_of|as_[a-z_0-9]+|from_[a-z_0-9]+)\(',
    '4b': r'^ *(pub )?fn (eq|ne|lt|le|cmp|before|same_[a-z_]+|[a-z_]*_(eq|ne|lt|le))\(',
    '4c': r'^ *(pub )?fn (add|sub|mul|div|neg|rem|times|scaled|[a-z_0-9]+_(add|sub|mul))\((self|mut self)',
    '6b': r'^\s*pub (count|len|start|widgets|layers|counts|words): ',
    '6c': r'\[[a-z_]+ \* [0-9A-Z_]+( \+ [0-9]+)?\]',
    '7a': r'\bfn [^(]*\([^)]*\b(kind|sought|ok): (u8|u32|u64|usize|Sought|bool)\b',
    '7b': r'^ *match (kind|mode|code|form|which|arg|head / KIND_UNIT)\b',
}
SIGNATURES = {
    '5b': r'(times|stamps): &.*positions: &',
    '5c': r'codes: &.*(positions|places): &',
    '5d': r'words: &.*numbers: &',
    '5e': r'within: &.*(click|drag): |close: &.*within: &',
    '5f': r'lists: &.*count: u8',
    '6a': r'&mut (Answer|Buffer).*[ (]n: usize',
}
REASON = re.compile(r'//[/!]? *Kept \(([^)]*)\): *(.*)')
FN = re.compile(r'^ *(pub )?(extern "C" )?fn ')
ITEM = re.compile(r'^ *(pub )?(unsafe )?(extern "C" )?(fn|struct|enum|const|static|impl|trait)\b')


def reasons(lines):
    """For each line of a file, the reason that holds for it, or None."""
    head, at = None, 0
    while at < len(lines) and (lines[at].startswith('//') or not lines[at].strip()):
        m = REASON.search(lines[at])
        # the first comment is the file's only where a `use` or a blank line follows it
        head = m or head
        at += 1
    if at < len(lines) and ITEM.match(lines[at]) and '' not in lines[:at]:
        head = None
    found, item, block, above = [], None, None, None
    for l in lines:
        t = l.strip()
        m = REASON.search(l)
        if t.startswith('//') or t.startswith('#['):
            above = m or above
        elif ITEM.match(l):
            if l.startswith(' '):
                item = above
            else:
                item, block = above, None
                if re.match(r'^(pub )?(impl|trait)\b', l):
                    block, item = above, None
            above = None
        elif not t:
            if not l.startswith(' '):
                above = None
        else:
            item = m or above or item
            above = None
        if t == '}' and l.startswith('}'):
            found.append(item or block or head)
            item = block = None
            continue
        found.append(m or item or block or above or head)
    return found


def places(top):
    norm = {}
    for path in sorted(glob.glob(f'{top}/crates/*/src/*.rt')):
        name = os.path.relpath(path, f'{top}/crates')
        with open(path, encoding='utf-8') as it:
            lines = it.read().split('\n')
        why = reasons(lines)
        for n, l in enumerate(lines):
            for row, form in LINES.items():
                k = len(re.findall(form, l)) if row in ('1f', '6c') else bool(re.search(form, l))
                for _ in range(k):
                    yield row, name, n + 1, l.strip(), why[n]
        on, text, start = False, '', 0
        for n, l in enumerate(lines):
            if FN.match(l):
                text, on, start = '', True, n
            if on:
                text += l
                if re.match(r'^ *\)', l) or re.search(r'fn .*\)', l):
                    if len(re.findall(r'[a-z_0-9]+: ', re.sub(r'\) *->.*', '', text))) >= 8:
                        yield '5a', name, start + 1, text.strip(), why[start]
                    for row, form in SIGNATURES.items():
                        if re.search(form, text):
                            yield row, name, start + 1, text.strip(), why[start]
                    on = False
        on, body, k, start = False, '', 0, 0
        for n, l in enumerate(lines):
            if FN.match(l):
                on, body, k, start = True, '', 0, n
            if on:
                x = re.sub(r'[A-Za-z_][A-Za-z_0-9:]*', 'x', l)
                x = re.sub(r'[ \t]+', '', re.sub(r'[0-9]+', '0', x))
                if not re.match(r'^(xx?\{|//)', x):
                    body += x
                k += 1
                if l in ('}', '    }'):
                    if k > 5:
                        norm.setdefault(body, []).append((name, start + 1, lines[start].strip(), why[start]))
                    on = False
    alike = [group for group in norm.values() if len(group) > 1]
    for number, group in enumerate(alike, 1):
        for name, n, text, why in group:
            yield '2a', name, n, f'[{number}] {text}', why


def main():
    words = sys.argv[1:]
    top = os.path.join(os.path.dirname(os.path.abspath(__file__)), '..')
    if '--top' in words:
        at = words.index('--top')
        top = words[at + 1]
        del words[at:at + 2]
    rows = [w for w in words if not w.startswith('--')]
    counts = {}
    for row, name, n, text, why in sorted(places(top), key=lambda p: p[:3]):
        if rows and row not in rows and name.split('/')[0] not in rows:
            continue
        kind = why[1] if why else 'open'
        counts.setdefault(row, {}).setdefault(kind, 0)
        counts[row][kind] += 1
        if '--count' in words or '--open' in words and why:
            continue
        print(f'{row} {name}:{n} {text[:110]}' + (f' | {kind}: {why[2][:90]}' if why else ''))
    if '--count' in words:
        kinds = sorted({k for c in counts.values() for k in c})
        print('row', *kinds, 'all')
        for row, c in sorted(counts.items()):
            print(row, *(c.get(k, 0) for k in kinds), sum(c.values()))


main()
