#!/usr/bin/env python3
"""Lists places in src/ where an older way of writing may stand, by the points of docs/DESIGN-PASS.md.

    python3 tools/places.py [POINT ..]         lists the places of these points, or of all
    python3 tools/places.py --counts           one line a point, with the number of places

It finds by form alone: whether a place is better written otherwise is for a reader to say.
"""
import re
import sys
from collections import defaultdict
from pathlib import Path

TOP = Path(__file__).resolve().parent.parent
FN = re.compile(r'^( *)(?:pub(?:\([a-z]+\))? )?(?:const )?fn (\w+)', re.M)


class Function:
    def __init__(self, path, line, name, head, clauses, body):
        self.path, self.line, self.name = path, line, name
        self.head, self.clauses, self.body = head, clauses, body

    def at(self):
        return f'{self.path}:{self.line} {self.name}'

    def parameters(self):
        inside = self.head[self.head.index('(') + 1:]
        depth, parts, now = 0, [], ''
        for c in inside:
            if c in '([<':
                depth += 1
            if c in ')]>':
                depth -= 1
                if depth < 0:
                    break
            if c == ',' and depth == 0:
                parts.append(now)
                now = ''
            else:
                now += c
        parts.append(now)
        found = []
        for part in parts:
            if ':' in part:
                name, kind = part.split(':', 1)
                kind = re.sub(r"'\w+ ?|<'_[^>]*>|\s", '', kind.strip())
                found.append((name.strip().replace('mut ', ''), kind))
        return found

    def result(self):
        found = re.search(r'->\s*(.+)$', re.sub(r'\s+', ' ', self.head))
        return found.group(1).strip() if found else ''


def functions():
    for path in sorted(TOP.glob('crates/*/src/**/*.rt')):
        text = path.read_text()
        for found in FN.finditer(text):
            end = matching(text, found.end())
            if end is None:
                continue
            whole = text[found.start():end]
            opening = body_start(text, found.end())
            if opening is None:
                continue
            head_and = text[found.start():opening]
            clauses = re.findall(r'^\s*(?:requires|ensures)\*? ?(?:\w+ )?\{ (.*) \}\s*;?$', head_and, re.M)
            head = re.split(r'\n\s*(?:requires|ensures|ghost)\b', head_and)[0]
            line = text.count('\n', 0, found.start()) + 1
            yield Function(path.relative_to(TOP), line, found.group(2), head, clauses, text[opening:end])


def body_start(text, at):
    """The brace that opens the body: the first that no clause owns."""
    while True:
        brace, semi = text.find('{', at), text.find(';', at)
        if brace < 0 or (0 <= semi < brace):
            return None
        line = text[text.rfind('\n', 0, brace) + 1:brace]
        if re.match(r'\s*(requires|ensures|ghost|where)\b', line) and 'where' not in line:
            at = close_of(text, brace)
            continue
        return brace


def close_of(text, brace):
    depth = 0
    for i in range(brace, len(text)):
        if text[i] == '{':
            depth += 1
        elif text[i] == '}':
            depth -= 1
            if depth == 0:
                return i + 1
    return len(text)


def matching(text, at):
    start = body_start(text, at)
    return None if start is None else close_of(text, start)


def blocks(kind):
    """Each struct or enum: where it stands, its name and what its braces hold."""
    for path in sorted(TOP.glob('crates/*/src/**/*.rt')):
        text = path.read_text()
        for found in re.finditer(rf'^(?:pub(?:\([a-z]+\))? )?{kind} (\w+)[^;{{]*\{{', text, re.M):
            body = text[found.end():close_of(text, found.end() - 1)]
            yield path.relative_to(TOP), text.count('\n', 0, found.start()) + 1, found.group(1), body


def structs():
    for path, line, name, body in blocks('struct'):
        fields = re.findall(r'^\s+(?:pub(?:\([a-z]+\))? )?(\w+): ([^,{]+),', body, re.M)
        facts = re.findall(r'^\s+ghost (\w+): \{ (.*) \},', body, re.M)
        yield path, line, name, fields, facts


def enums():
    for path, line, name, body in blocks('enum'):
        yield path, line, name, re.findall(r'^    (\w+)(\([^)]*\))?,', body, re.M)


def point_1():
    """Bools that say whether to go on, flags beside a value, enums of the shape of Option or Result, numbers for none."""
    asks = ('is_', 'has_', 'holds', 'stands', 'satisfies', 'differs', 'says', 'mentions', 'makes_true', 'well_formed',
            'follows', 'same_bytes')
    for f in functions():
        if f.result() in ('bool', 'Option<bool>') and not f.name.startswith(asks) \
                and f.name not in ('value', 'at', 'worth', 'read_truth', 'read'):
            yield f'{f.at()} -> {f.result()}'
    for path, line, name, fields, _ in structs():
        for field, kind in fields:
            if kind == 'bool':
                yield f'{path}:{line} {name}.{field}: bool'
    for path, line, name, cases in enums():
        if len(cases) == 2 and sum(1 for c in cases if c[1]) in (1, 2):
            yield f'{path}:{line} enum {name} {[c[0] + c[1] for c in cases]}'
    for f in functions():
        if f.result() == 'usize' and re.search(r'\.len\(\)\s*\}$', f.body.strip()) and 'return i' in f.body:
            yield f'{f.at()}: a length for none'
    for path in sorted(TOP.glob('crates/*/src/**/*.rt')):
        for n, text in enumerate(path.read_text().split('\n'), 1):
            if re.search(r'const (NOWHERE|NONE_\w+)\b|const \w+: u32 = 4_294_967_295', text):
                yield f'{path.relative_to(TOP)}:{n} {text.strip()}'


KEYWORDS = set('''as break const continue else enum false fn for if impl in let loop match mod mut pub ref return self Self
struct super true type use where while None Some Ok Err u8 u32 i32 usize u64 bool'''.split())


def shape(body):
    names, out = {}, []
    for token in re.findall(r"b?\"[^\"]*\"|b?'[^']*'|\w+|[^\s\w]", re.sub(r'//.*', '', body)):
        if re.match(r'b?["\']', token) and len(token) > 1:
            out.append('T')
        elif token[0].isdigit():
            out.append('0')
        elif re.match(r'\w', token) and token not in KEYWORDS:
            out.append(names.setdefault(token, f'v{len(names)}'))
        else:
            out.append(token)
    return ' '.join(out)


def point_2():
    """Functions whose bodies are the same but for names and constants; structs with the same facts."""
    groups = defaultdict(list)
    for f in functions():
        key = shape(f.body)
        if key.count(' ') >= 14:
            groups[key].append(f)
    for group in groups.values():
        if len(group) > 1:
            yield f'{len(group)} alike: ' + ', '.join(f.at() for f in group)
    facts = defaultdict(list)
    for path, line, name, _, its in structs():
        for fact, text in its:
            facts[text].append(f'{path}:{line} {name}')
    shared = defaultdict(int)
    for where in facts.values():
        if len(where) > 1:
            shared[tuple(where)] += 1
    for where, count in shared.items():
        yield f'{count} ghost facts alike: ' + ', '.join(where)


def point_3():
    """Loops over a range or under a test of an index."""
    for path in sorted(TOP.glob('crates/*/src/**/*.rt')):
        for n, text in enumerate(path.read_text().split('\n'), 1):
            if re.search(r'^\s*while (?!let)', text) or re.search(r'\bfor \w+ in .*\.\.', text) or re.search(r'^\s*loop\b', text):
                yield f'{path.relative_to(TOP)}:{n} {text.strip()}'


def point_4():
    """Conversions, equality and printing written by hand."""
    for f in functions():
        flat = re.sub(r'\s+', ' ', f.body)
        if f.name in ('from', 'of', 'refusal', 'number', 'place', 'same_bytes', 'push_decimal', 'write_line'):
            if f.name not in ('number', 'place') or 'match' in flat:
                yield f.at()
        elif f.result() == 'bool' and re.match(r'\{ match \S+ \{', flat) and re.fullmatch(
                r'\{ match \S+ \{ (?:[\w:| ().]+ => (?:true|false|\{\s*(?:true|false)\s*\}),? ?)+\} \}', flat):
            yield f'{f.at()}: a match that gives true or false'


def point_5():
    """Clauses that stand in three or more contracts; parameters that stand together in four or more functions."""
    where = defaultdict(set)
    for f in functions():
        for clause in f.clauses:
            if '≡ length' in clause or '.new ≡' in clause or 'result' in clause or clause.count(' ') < 2:
                continue
            where[re.sub(r'\.(now|old|new|entry)\b', '', clause)].add(f.at())
    for clause, places in sorted(where.items(), key=lambda x: -len(x[1])):
        if len(places) >= 3:
            yield f'{len(places)} contracts: {clause}'
    pairs = defaultdict(list)
    for f in functions():
        its = sorted(set(f.parameters()))
        for i, a in enumerate(its):
            for b in its[i + 1:]:
                if a[0] != 'self' and b[0] != 'self':
                    pairs[(a, b)].append(f.at())
    for (a, b), places in sorted(pairs.items(), key=lambda x: -len(x[1])):
        if len(places) >= 4:
            yield f'{len(places)} functions: {a[0]}: {a[1]}, {b[0]}: {b[1]}'


def point_6():
    """Structs that hold a slice beside a length, or a place by numbers; structs of plain scratch memory."""
    for path, line, name, fields, _ in structs():
        slices = [x for x, kind in fields if '[' in kind]
        numbers = [x for x, kind in fields if kind in ('usize', 'u32')]
        if slices and numbers:
            yield f'{path}:{line} {name}: {", ".join(slices)} beside {", ".join(numbers)}'
        elif {x for x, _ in fields} >= {'start', 'len'} or {x for x, _ in fields} >= {'first', 'len'}:
            yield f'{path}:{line} {name}: a place and a length'
    for f in functions():
        if re.search(r'while low < high', f.body):
            yield f'{f.at()}: a search by hand'


def point_7():
    """Enums without values that a function is given to choose what to do."""
    plain = {name for _, _, name, cases in enums() if cases and not any(c[1] for c in cases)}
    for f in functions():
        for name, kind in f.parameters():
            if kind in plain and re.search(rf'match {name} \{{', f.body):
                yield f'{f.at()}: by {name}: {kind}'


def point_8():
    """Answers in proof files, and lemmas of the crates' own."""
    for path in sorted(TOP.glob('crates/*/proofs')):
        answers = lemmas = 0
        for file in path.rglob('*.antt'):
            found = len(re.findall(r'^pub (?:[\w-]+) : goal\.', file.read_text(), re.M))
            answers += found if file.name == 'Answers.antt' else 0
            if file.parent == path and file.name != 'Lib.antt':
                lemmas += len(re.findall(r'^(?:abbrev |unfoldable )?(?:pub )?[^\s:]+ :', file.read_text(), re.M))
        if answers or lemmas:
            yield f'{path.parent.name}: {answers} answers, {lemmas} lemmas in files of their own'


POINTS = {str(n): globals()[f'point_{n}'] for n in range(1, 9)}


def main(words):
    counts = '--counts' in words
    for number in [w for w in words if w in POINTS] or list(POINTS):
        found = list(POINTS[number]())
        print(f'{number}. {len(found)}: {POINTS[number].__doc__}')
        if not counts:
            for line in found:
                print('   ', line)


if __name__ == '__main__':
    main(sys.argv[1:])
