#!/usr/bin/env python3
"""Writes host/rust/src/ffi.rs and host/c/fivvarul.h from the exported functions of crates/host and crates/host_questions.

    host/boundary.py            writes both files
    host/boundary.py --check    says which of the two isn't what it would write, and ends with 1

The parameter lists, the types, the lengths of arrays and the order of a record's fields are those of the Rattle sources; a constant's value is
worked out from its definition. A parameter that is a fixed array is a place of the panel's memory: the same name is the same place in every
function, so both files have a record of all of them, and each function once more as one of that record.
"""
import glob, os, re, sys

os.chdir(os.path.dirname(os.path.dirname(os.path.abspath(__file__))))
# the operations, and the questions
EXPORTS = ('host', 'host_questions')
PREFIX = 'fivvarul_'
# size, name in C; a type of Rattle has the same name in Rust
SCALARS = {'bool': (1, 'bool'), 'u8': (1, 'uint8_t'), 'i32': (4, 'int32_t'), 'u32': (4, 'uint32_t'), 'u64': (8, 'uint64_t'), 'usize': (8, 'size_t'),
           'f32': (4, 'float'), 'f64': (8, 'double')}
ZEROS = {'bool': 'false', 'f32': '0.0', 'f64': '0.0'}


def refuse(text):
    sys.exit(f'boundary: {text}')


class Module:
    """One .rt file: what it defines and what it names of others."""

    def __init__(self, path):
        crate, rest = re.fullmatch(r'crates/([^/]+)/src/(.*)\.rt', path).groups()
        self.name = '::'.join([crate] + [p for p in rest.split('/') if p != 'lib'])
        self.crate = crate
        text = open(path, encoding='utf-8').read()
        self.head = (re.match(r'// (.*)', text) or [None, ''])[1]
        self.uses = {here: path for m in re.finditer(r'^(?:pub )?use ([^;]+);', text, re.M) for here, path in names(m[1].replace('crate::', crate + '::'))}
        self.consts = dict(re.findall(r'^(?:pub )?const (\w+): \w+ = ([^;]+);', text, re.M))
        self.types = dict(re.findall(r'^pub type (\w+) = (.+);$', text, re.M))
        self.structs = {m[2]: (comment(m[1]), re.findall(r'^    pub (\w+): ([^,]+),', m[3], re.M))
                        for m in re.finditer(r'^((?://[^\n]*\n)*)#\[repr\(C\)\]\n(?:#\[derive\([^\n]*\)\]\n)?pub struct (\w+) \{\n(.*?)^\}', text, re.M | re.S)}
        self.exports = [(m[2], comment(m[1]), parameters(m[3]), m[4])
                        for m in re.finditer(r'^((?://[^\n]*\n)*)#\[unsafe\(no_mangle\)\]\npub extern "C" fn (\w+)\(([^)]*)\)(?: -> (\w+))?', text, re.M)]
        if len(self.exports) != text.count('#[unsafe(no_mangle)]'):
            refuse(f'{path}: an exported function is not in the form that is read here')


def names(text):
    """what a `use` brings in, each with its path: of `a::b`, `a::b as c` or `a::{b, c as d}`"""
    above, _, listed = text.partition('{')
    for word in (listed.rstrip('} \n') if listed else above).split(','):
        path, _, here = word.strip().partition(' as ')
        if path:
            path = above + path if listed else path
            yield here or path.split('::')[-1], path


def comment(lines):
    return ' '.join(line[2:].strip() for line in lines.splitlines())


def parameters(text):
    # a parameter that the body changes is `mut` in Rattle alone
    return [tuple(p.strip().removeprefix('mut ').split(': ', 1)) for p in re.split(r',\s*(?![^\[]*\])', text) if p.strip()]


modules = {m.name: m for m in (Module(p) for p in sorted(glob.glob('crates/*/src/**/*.rt', recursive=True)))}


def found(module, name, kind):
    """the module that defines `name`, and its name there"""
    for _ in range(9):
        if name in getattr(module, kind):
            return module, name
        if name not in module.uses:
            break
        path, _, name = module.uses[name].rpartition('::')
        if path not in modules:
            break
        module = modules[path]
    refuse(f'{module.name}: no {name} among its {kind}')


def value(module, text):
    text = re.sub(r' as \w+', '', text)
    return int(eval(re.sub(r'[A-Za-z_]\w*', lambda m: str(constant(module, m[0])), text).replace('/', '//'), {'__builtins__': {}}))


def constant(module, name):
    at, there = found(module, name, 'consts')
    return value(at, at.consts[there])


lengths = {}    # a length's name as it is written, its value
records = {}    # a record's name, its comment and fields, those that it holds first


def sized(module, name):
    """a length by the name that the exports give it"""
    n = constant(module, name) if not name.isdigit() else int(name)
    if not name.isdigit() and lengths.setdefault(name, n) != n:
        refuse(f'{module.name}: {name} is {n} here and {lengths[name]} elsewhere')
    return name


def part(module, t):
    """a field's type and, where it is an array, its length"""
    m = re.fullmatch(r'\[(\w+); (\w+)\]', t)
    element, length = m.groups() if m else (t, None)
    return element if element in SCALARS else record(module, element), length and sized(module, length)


def record(module, name):
    at, there = found(module, name, 'structs')
    if there not in records:
        text, fields = at.structs[there]
        records[there] = (text, [(n, *part(at, t)) for n, t in fields])
        # the records that it holds come first
        records[there] = records.pop(there)
    return there


def form(module, t):
    """('scalar' | 'record' | 'array' | 'slice', element, length, writable)"""
    m = re.fullmatch(r'&(mut )?\[(\w+); (\w+)\]', t)
    if m:
        return 'array', m[2], sized(module, m[3]), bool(m[1])
    m = re.fullmatch(r'&(mut )?\[(\w+)\]', t)
    if m:
        return 'slice', m[2] if m[2] in SCALARS else record(module, m[2]), None, bool(m[1])
    m = re.fullmatch(r'&(mut )?(\w+)', t)
    if m:
        at, there = found(module, m[2], 'types')
        kind = re.fullmatch(r'\[(\w+); (\w+)\]', at.types[there])
        return 'array', kind[1], sized(at, kind[2]), bool(m[1])
    if t in SCALARS:
        return 'scalar', t, None, False
    return 'record', record(module, t), None, False


exports = []
for module in modules.values():
    if module.crate in EXPORTS:
        for name, text, given, answer in module.exports:
            if not name.startswith(PREFIX):
                refuse(f'{module.name}: {name} does not start with {PREFIX}')
            exports.append((module, name, text, [(n, *form(module, t)) for n, t in given], answer and form(module, answer)[1]))
if not exports:
    refuse('no function is exported')
# The calls that change a panel first, then the questions by file.
exports.sort(key=lambda e: (not any(w for _, k, _, _, w in e[3] if k == 'array'), e[0].name))

memory = {}
for module, name, _, given, _ in exports:
    for n, kind, element, length, _ in given:
        if kind == 'array' and memory.setdefault(n, (element, length)) != (element, length):
            refuse(f'{module.name}: {name} has another {n} than the functions before it')
memory = dict(sorted(memory.items(), key=lambda f: -SCALARS[f[1][0]][0]))


def layout(name):
    """size and alignment of a record, as C lays it out"""
    at, most = 0, 1
    for _, t, length in records[name][1]:
        size, align = (SCALARS[t][0],) * 2 if t in SCALARS else layout(t)
        at = -(-at // align) * align + size * (places(length) if length else 1)
        most = max(most, align)
    return -(-at // most) * most, most


def changes(given):
    return any(w for _, k, _, _, w in given if k == 'array')


def places(length):
    return lengths[length] if length in lengths else int(length)


def bytes_of_memory():
    return sum(SCALARS[t][0] * places(n) for t, n in memory.values())


# ---- Rust

def rust_type(kind, element, length, writable):
    lent = '&mut ' if writable else '&'
    return {'array': f'{lent}[{element}; {length}]', 'slice': f'{lent}[{element}]'}.get(kind, element)


def rust_extern(name, given, answer):
    words = []
    for n, kind, element, length, writable in given:
        if kind == 'slice':
            words += [f'{n}: *{"mut" if writable else "const"} {element}', f'{n}_len: usize']
        else:
            words.append(f'{n}: {rust_type(kind, element, length, writable)}')
    safe = '' if any(g[1] == 'slice' for g in given) else 'safe '
    return f'    pub {safe}fn {name}({", ".join(words)}){" -> " + answer if answer else ""};\n'


def rust_method(name, text, given, answer):
    outer = [f'{n}: {rust_type(k, e, l, w)}' for n, k, e, l, w in given if k != 'array']
    inner = []
    for n, kind, _, _, writable in given:
        if kind == 'array':
            inner.append(f'{"&mut " if writable else "&"}self.{n}')
        elif kind == 'slice':
            inner += [f'{n}.as_{"mut_" if writable else ""}ptr()', f'{n}.len()']
        else:
            inner.append(n)
    me = [] if not any(k == 'array' for _, k, _, _, _ in given) else ['&mut self' if changes(given) else '&self']
    call = f'{name}({", ".join(inner)})'
    if any(g[1] == 'slice' for g in given):
        call = f'unsafe {{ {call} }}'
    doc = f'    /// {text}\n' if text else ''
    return f'{doc}    pub fn {name[len(PREFIX):]}({", ".join(me + outer)}){" -> " + answer if answer else ""} {{\n        {call}\n    }}\n'


def rust():
    out = ['''//! What crosses to the archives of the Rattle crates `host` and `host_questions`. Made by host/boundary.py from their sources, and checked against it by the gate.
//!
//! Every reference leads to memory that Rust owns, a `&mut` is the only one to its place, a slice is a pointer and its own length, and no exported
//! function has a precondition: each call is sound if these declarations are those of the sources. A slice of no places has a pointer too, at
//! which nothing is read.
#![allow(clippy::too_many_arguments, dead_code)]

const _: () = assert!(core::mem::size_of::<usize>() == 8, "the archive is for 64 bits");

''']
    for n in sorted(lengths):
        out.append(f'pub const {n}: usize = {lengths[n]};\n')
    for name, (text, fields) in records.items():
        out.append('\n' + (f'/// {text}\n' if text else '') + f'#[repr(C)]\n#[derive(Clone, Copy, Debug, Default, PartialEq)]\npub struct {name} {{\n')
        out += [f'    pub {n}: {f"[{t}; {length}]" if length else t},\n' for n, t, length in fields]
        out.append(f'}}\n\nconst _: () = assert!(core::mem::size_of::<{name}>() == {layout(name)[0]});\n')
    out.append(f'\n/// A panel\'s memory, {bytes_of_memory():,} bytes. Any contents mean a panel; `fresh` makes them a fresh one.\n#[derive(Clone)]\npub struct Memory {{\n')
    out += [f'    pub {n}: [{t}; {l}],\n' for n, (t, l) in memory.items()]
    out.append('}\n\nimpl Memory {\n    pub const ZERO: Memory = Memory {\n')
    out += [f'        {n}: [{ZEROS.get(t, "0")}; {l}],\n' for n, (t, l) in memory.items()]
    out.append('    };\n}\n\nunsafe extern "C" {\n')
    out += [rust_extern(name, given, answer) for _, name, _, given, answer in exports]
    out.append('''}

/// The words of a hit list: id and sense of each entry.
pub fn words_of(hits: &[crate::Hit]) -> &[u64] {
    // A Hit is two u64 in C's layout, so the list is a list of twice as many u64.
    unsafe { core::slice::from_raw_parts(hits.as_ptr().cast(), 2 * hits.len()) }
}

impl Memory {
''')
    out.append('\n'.join(rust_method(name, text, given, answer) for _, name, text, given, answer in exports))
    out.append('}\n')
    return ''.join(out)


# ---- C

def c_name(t):
    if t in SCALARS:
        return SCALARS[t][1]
    return 'Fivvarul' + re.sub(r'^Host', '', t)


def c_length(n):
    return n if n.isdigit() else f'FIVVARUL_{n}'


def c_parameters(given, places):
    words = []
    for n, kind, element, length, writable in given:
        const = '' if writable else 'const '
        if kind == 'slice':
            words += [f'{const}{c_name(element)} *{n}', f'size_t {n}_len']
        elif kind != 'array':
            words.append(f'{c_name(element)} {n}')
        elif places:
            words.append(f'{const}{c_name(element)} {n}[{c_length(length)}]')
    return words


def c():
    out = ['''/* The panel for C. Made by host/boundary.py from crates/host and crates/host_questions, and checked against them by the gate: see docs/HOST.md.
 *
 * A FivvarulPanel is plain memory of the caller's, at any address aligned to 8: it may be copied and moved. fivvarul_panel_fresh makes it a
 * fresh panel; any other contents mean a panel too. A bool must be 0 or 1, a pointer must lead to as many places as its length says (with
 * length 0 it must not be null either), and no two lent places may overlap. An answer's number is 0 where the call was taken, else that of the refusal, and all is as before.
 */
#ifndef FIVVARUL_H
#define FIVVARUL_H
#include <stdbool.h>
#include <stddef.h>
#include <stdint.h>

#ifdef __cplusplus
extern "C" {
#endif

''']
    for n in sorted(lengths):
        out.append(f'#define FIVVARUL_{n} {lengths[n]}\n')
    for name, (text, fields) in records.items():
        out.append('\n' + (f'/* {text} */\n' if text else '') + f'typedef struct {{\n')
        out += [f'    {c_name(t)} {n}{f"[{c_length(length)}]" if length else ""};\n' for n, t, length in fields]
        out.append(f'}} {c_name(name)};\n')
    out.append('\n#ifndef __cplusplus\n')
    out += [f'_Static_assert(sizeof({c_name(name)}) == {layout(name)[0]}, "{c_name(name)}");\n' for name in records]
    out.append('#endif\n\n')
    for _, name, _, given, answer in exports:
        out.append(f'{c_name(answer) if answer else "void"} {name}({", ".join(c_parameters(given, True)) or "void"});\n')
    out.append('\n/* ---- the same, of one record */\n\ntypedef struct {\n')
    out += [f'    {c_name(t)} {n}[{c_length(l)}];\n' for n, (t, l) in memory.items()]
    out.append('} FivvarulPanel;\n')
    for _, name, text, given, answer in exports:
        if not any(k == 'array' for _, k, _, _, _ in given):
            continue
        lent = '' if changes(given) else 'const '
        outer = ', '.join([f'{lent}FivvarulPanel *p'] + c_parameters(given, False))
        inner = ', '.join(f'p->{n}' if k == 'array' else f'{n}, {n}_len' if k == 'slice' else n for n, k, _, _, _ in given)
        doc = f'/* {text} */\n' if text else ''
        out.append(f'\n{doc}static inline {c_name(answer) if answer else "void"} {PREFIX}panel_{name[len(PREFIX):]}({outer}) {{\n'
                   f'    {"return " if answer else ""}{name}({inner});\n}}\n')
    out.append('\n#ifdef __cplusplus\n}\n#endif\n#endif\n')
    return ''.join(out)


made = {'host/rust/src/ffi.rs': rust(), 'host/c/fivvarul.h': c()}
other = [path for path, text in made.items() if not os.path.exists(path) or open(path, encoding='utf-8').read() != text]
if sys.argv[1:] == ['--check']:
    for path in other:
        print(f'boundary: {path} is not what the sources of crates/host and crates/host_questions give: run host/boundary.py')
    if other:
        sys.exit(1)
    print(f'boundary: {len(exports)} functions, {len(records)} records, {len(memory)} places: both files are what the sources give')
elif sys.argv[1:]:
    refuse('usage: host/boundary.py [--check]')
else:
    for path in other:
        with open(path, 'w', encoding='utf-8') as f:
            f.write(made[path])
    print(f'boundary: {len(exports)} functions, {len(records)} records, {len(memory)} places; {len(other)} files written')
