#!/usr/bin/env python3
"""places.py [N]: the places in crates/*/src that docs/DESIGN-PASS.md counts, by its points 1 to 7.

Without a number, a line of counts for each kind of place; with one, the places of that point.
It goes by text alone: what is found may be right as it stands, and then a line `// Stays:` is beside it
or above it (up to ten lines), which the second number of each count counts.
The static libraries NAME_c are left out: each of their functions stands in NAME.
"""
import re, sys, collections, pathlib

TOP = pathlib.Path(__file__).resolve().parent.parent


def sources():
    for path in sorted(TOP.glob('crates/*/src/**/*.rt')):
        crate = path.relative_to(TOP).parts[1]
        if not crate.endswith('_c'):
            yield path


class Fn:
    """A function: where it stands, its head, its clauses and its body, as text."""

    def __init__(self, path, line, text):
        self.path, self.line, self.text = path, line, text
        self.name = re.search(r'\bfn (\w+)', text).group(1)
        head, body, depth, i = '', '', 0, 0
        # the body begins at the first '{' that ends a line
        m = re.search(r'\{\s*$', text, re.M)
        at = m.start()
        lines = text.split('\n')
        start = None
        for k, l in enumerate(lines):
            s = l.strip()
            if s.endswith('{') and not s.startswith(('requires', 'ensures', '×')) and not re.match(r'(requires|ensures)', s):
                start = k
                break
        if start is None:
            start = len(lines) - 1
        self.head = '\n'.join(lines[:start])
        if lines[start].strip() != '{':
            self.head += '\n' + lines[start].rsplit('{', 1)[0]
        self.body = '\n'.join(lines[start + 1:])
        self.requires = re.findall(r'requires(?:\s+\w+)?\s*\{(.*)\}', self.head)
        sig = re.split(r'\n\s*(?:requires|ensures|ghost)\b', self.head)[0]
        r = re.search(r'\)\s*->\s*(.+?)\s*$', sig, re.S)
        self.result = r.group(1).strip() if r else ''
        p = re.search(r'\bfn \w+(?:<[^(]*>)?\((.*)\)', sig, re.S)
        self.params = re.findall(r'(\w+)\s*:\s*([^,]+)', p.group(1)) if p else []
        self.exported = 'extern "C"' in sig
        self.public = bool(re.match(r'\s*pub ', text))


def functions():
    for path in sources():
        lines = path.read_text().split('\n')
        i = 0
        while i < len(lines):
            m = re.match(r'(\s*)(pub(\([a-z]+\))? )?(const )?(extern "C" )?fn \w+', lines[i])
            if not m:
                i += 1
                continue
            end = i
            while not re.match(m.group(1) + r'\}', lines[end]):
                end += 1
                if end == len(lines) - 1:
                    break
            yield Fn(path, i + 1, '\n'.join(lines[i:end + 1]))
            i = end + 1


def structs():
    for path in sources():
        text = path.read_text()
        for m in re.finditer(r'^(?:pub )?struct (\w+)[^{;(]*\{(.*?)^\}', text, re.M | re.S):
            yield path, text[:m.start()].count('\n') + 1, m.group(1), re.findall(r'^\s+(?:pub )?(\w+): ([^\n]+?),?$', m.group(2), re.M)


def enums():
    for path in sources():
        text = path.read_text()
        for m in re.finditer(r'^(?:pub )?enum (\w+)[^{]*\{(.*?)^\}', text, re.M | re.S):
            yield path, text[:m.start()].count('\n') + 1, m.group(1), re.findall(r'^\s+(\w+)(?:\(([^)]*)\))?,', m.group(2), re.M)


ALL = list(functions())
FLAGS = {'number', 'ok', 'settled', 'pulse', 'more', 'ended'}


def flag_records():
    'a record with a number of document 01 or a flag beside a value'
    for path, line, name, fields in structs():
        if len(fields) > 1 and any(f in FLAGS and t in ('u8', 'bool') for f, t in fields):
            yield path, line, f'struct {name}'


def own_options():
    'an enum of the shape of Option or Result: one variant for nothing or for refusals by number'
    for path, line, name, variants in enums():
        if name in ('Refusal', 'Unheard'):
            continue
        words = [v for v, _ in variants]
        if (len(variants) == 2 and sum(1 for _, a in variants if a) == 1) or any(v == 'Refuse' and a == 'u8' for v, a in variants) \
                or any(w.startswith('Wrong') for w in words) and any(w == 'Data' for w in words):
            yield path, line, f'enum {name}'


def number_results():
    'a function, not for C, that answers a kind or a refusal by a number'
    for f in ALL:
        if f.exported or f.result not in ('u8', 'u32') or 'number' in f.name and f.name.startswith('number'):
            continue
        if re.search(r'(return|=>|\{|else)\s*\n?\s*(\d{1,2}|[A-Z][A-Z_]+)\s*[;,}\n]', f.body) and len(re.findall(r'\b\d{1,2}\b|\b[A-Z_]{4,}\b', f.body)) >= 2 \
                and not re.search(r'[*/%^+]', f.body):
            yield f.path, f.line, f'fn {f.name}'


def numbered_calls():
    'a refusal handed on as a literal or constant number'
    for path in sources():
        for i, l in enumerate(path.read_text().split('\n'), 1):
            if l.strip().startswith('//'):
                continue
            if re.search(r'\b(refuse|unheard_with|Refuse|refused)\((\d+|[A-Z_]+|commands::[A-Z_]+|crate::[A-Z_]+)\b', l) or re.search(r'\bnumber: (\d+|[A-Z_]{3,}|[a-z_]+::[A-Z_]+),', l) \
                    or re.search(r'\bnumber (!=|==) ', l):
                yield path, i, l.strip()


def skeleton(f):
    t = re.sub(r'//.*', '', f.body)
    t = re.sub(r'b?"(\\.|[^"])*"', 'TEXT', t)
    t = re.sub(r"b?'(\\.|[^'])'", 'NUM', t)
    t = re.sub(r'\b(0x[0-9A-Fa-f_]+|\d[\d_]*)(u8|u16|u32|u64|usize)?\b', 'NUM', t)
    t = re.sub(r'\b[A-Z][A-Z_0-9]{2,}\b', 'NUM', t)
    t = re.sub(r'\b[A-Z][A-Za-z]+\b', 'TYPE', t)
    names = {}
    def word(m):
        w = m.group(0)
        if w in ('if', 'else', 'while', 'loop', 'for', 'in', 'match', 'return', 'let', 'mut', 'as', 'true', 'false', 'NUM', 'TEXT', 'TYPE', 'u8', 'u16', 'u32', 'u64', 'usize'):
            return w
        return names.setdefault(w, f'n{len(names)}')
    t = re.sub(r'\b[a-z_][A-Za-z_0-9]*\b', word, t)
    return re.sub(r'\s+', ' ', t)


def twins():
    'functions, not for C, whose bodies differ in names, types and constants alone'
    groups = collections.defaultdict(list)
    for f in ALL:
        # what a refusal's number and place are is each crate's own
        if f.exported or f.name in ('number', 'place'):
            continue
        s = skeleton(f)
        if len(s.split()) >= 12:
            groups[s].append(f)
    for g in groups.values():
        if len(g) > 1:
            for f in g:
                yield f.path, f.line, f'fn {f.name}, as {", ".join(o.path.parts[-3] + "::" + o.name for o in g if o is not f)}'


def twin_types():
    'structs, not for C, with the same fields'
    groups = collections.defaultdict(list)
    for path, line, name, fields in structs():
        groups[tuple(fields)].append((path, line, name))
    for g in groups.values():
        if len(g) > 1:
            for path, line, name in g:
                yield path, line, f'struct {name}, as {", ".join(o[0].parts[-3] + "::" + o[2] for o in g if o[:2] != (path, line))}'


def counted_loops():
    'a loop that counts by hand'
    for path in sources():
        for i, l in enumerate(path.read_text().split('\n'), 1):
            if re.match(r'\s*(while|loop)\b(?! let).*\{', l):
                yield path, i, l.strip()


def by_hand():
    'a smaller or larger one, a difference that stops at 0, a copy, a comparison, a choice or a conversion written out'
    for f in ALL:
        b = re.sub(r'//.*', '', f.body)
        one = re.sub(r'\s+', ' ', b).strip(' }')
        hand = (re.fullmatch(r'if (\w+) <=? (\w+) \{ (return )?(\w+);? \} (else \{ )?(\w+)( \})?', one) or
                re.fullmatch(r'if \w+ (<|==) \w+ \{ (return )?0;? \} (else \{ )?\(?\w+ - \w+\)?( as \w+)?( \})?', one) or
                re.fullmatch(r'if \w+ \{ \w+ \} else \{ \w+ \}', one) or
                re.fullmatch(r'\[s\[0\].*\]', one) or
                re.search(r'\w+\[\w+\] = \w+\[[^\]]*\]; i \+= 1', one) or
                re.search(r'as u(32|64|16) \* (256|65_?536|16_?777_?216|0x100)', one) or
                re.search(r'(& |= )\((\w+)\[i\] == (\w+)\[i\]\)', one) or
                re.search(r'w / 256 / 256', one) or
                f.name in ('energy_no', 'number_of', 'code_of', 'event_of', 'width') )
        if hand:
            yield f.path, f.line, f'fn {f.name}'


def shared_facts():
    'a fact that three or more functions of a crate require'
    groups = collections.defaultdict(set)
    for f in ALL:
        for r in f.requires:
            for fact in re.split(r' × ', r):
                fact = fact.strip(' (){}')
                if fact and 'length buf.old' not in fact and 'length out.old' not in fact and 'length reply.old' not in fact:
                    groups[(f.path.parts[-3], fact)].add((f.path, f.line, f.name))
    for (crate, fact), fs in sorted(groups.items()):
        if len(fs) >= 3:
            p = min(fs)
            yield p[0], p[1], f'{len(fs)} functions of {crate} require {fact}'


def travelling():
    'three or more parameters that four or more functions of a crate take together'
    groups = collections.Counter()
    where = {}
    for f in ALL:
        if f.exported:
            continue
        names = tuple(n for n, _ in f.params)
        for i in range(len(names)):
            for j in range(i + 3, len(names) + 1):
                key = (f.path.parts[-3], names[i:j])
                groups[key] += 1
                where.setdefault(key, (f.path, f.line))
    best = {}
    for (crate, names), n in groups.items():
        if n >= 4 and not any(c == crate and m >= n and set(names) < set(o) for (c, o), m in groups.items()):
            best[(crate, names)] = n
    for (crate, names), n in sorted(best.items()):
        yield *where[(crate, names)], f'{n} functions of {crate} take {", ".join(names)}'


def buffers():
    'a buffer with a length or a count beside it, or arrays side by side, in a record'
    for path, line, name, fields in structs():
        if any(t.startswith('[') for _, t in fields) and any(n in ('count', 'length') for n, _ in fields):
            yield path, line, f'struct {name}'
    for f in ALL:
        names = dict(f.params)
        if not f.exported and ('held' in names and 'count' in names or 'low' in names and 'high' in names and '[u8; 36]' in names['low']):
            yield f.path, f.line, f'fn {f.name}'


def chains():
    'a chain of three or more tests of one number or letter, or a match that spells out all arms for one value'
    for f in ALL:
        tests = re.findall(r"\bif (\w+) == (?:\d+|b'.')", f.body)
        c = collections.Counter(tests)
        if c and max(c.values()) >= 3:
            yield f.path, f.line, f'fn {f.name}'
            continue
        arms = re.findall(r'=> \{?([^{},]*)\}?,?$', f.body, re.M)
        c = collections.Counter(a.strip() for a in arms if a.strip())
        if c and max(c.values()) >= 3:
            yield f.path, f.line, f'fn {f.name}'


POINTS = {
    1: (flag_records, own_options, number_results, numbered_calls),
    2: (twins, twin_types),
    3: (counted_loops,),
    4: (by_hand,),
    5: (shared_facts, travelling),
    6: (buffers,),
    7: (chains,),
}


def stays(path, line):
    lines = path.read_text().split('\n')
    return any('// Stays:' in l for l in lines[max(0, line - 11):line + 12])


if __name__ == '__main__':
    want = int(sys.argv[1]) if len(sys.argv) > 1 else None
    for point, kinds in POINTS.items():
        if want not in (None, point):
            continue
        for kind in kinds:
            found = list(kind())
            kept = sum(stays(p, l) for p, l, _ in found)
            print(f'{point}: {len(found)} found, {kept} with a line that says why: {kind.__doc__}')
            if want:
                for p, l, what in found:
                    print(f'   {p.relative_to(TOP)}:{l}: {what}')
