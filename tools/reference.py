#!/usr/bin/env python3
"""A second implementation of upcheck, by the author of FORMATS.md and REFUSALS.md.

Run in a folder with the files problem, answer and certificate, it prints the line. It is meant to
be read beside those pages and compared with the real program; nothing in it is tuned for speed
but unit propagation, which visits only the clauses of literals that became false.
"""

import struct
import sys

FILES = ('problem', 'answer', 'certificate')
MOST_BYTES = 65536
MOST_STANZAS = 256
MOST_CONSTRAINTS = 1024
MOST_VERSION = 999999
MOST_NAME = 64
MOST_CLAUSE_LITERALS = 512
MOST_NUMBER = 1000000
ROOM_VARIABLES = 4096
ROOM_CLAUSES = 8192
ROOM_LITERALS = 16384
ROOM_HINTS = 16384

DIGITS = b'0123456789'
NAME_BYTES = frozenset(b'ABCDEFGHIJKLMNOPQRSTUVWXYZabcdefghijklmnopqrstuvwxyz' + DIGITS + b'+./@()%-')


class Refused(Exception):
    def __init__(self, file, place, number):
        super().__init__(file, place, number)
        self.file, self.place, self.number = file, place, number


class BadValue(Exception):
    pass


# ---------------------------------------------------------------- documents


def document_lines(text):
    """The lines as (number, bytes, whether LF ended it)."""
    parts = text.split(b'\n')
    last = parts.pop()
    lines = [(i + 1, line, True) for i, line in enumerate(parts)]
    if last:
        lines.append((len(parts) + 1, last, False))
    return lines


def is_form_fault(line, ended):
    if not ended or any(b < 32 or b > 126 for b in line):
        return True
    return line != b'' and b':' not in line


def property_of(line):
    name, _, value = line.partition(b':')
    return name, value.strip(b' ')


def read_decimal(text):
    if text == b'' or any(b not in DIGITS for b in text):
        raise BadValue
    if len(text) > 1 and text[:1] == b'0':
        raise BadValue
    return int(text)


def read_version(text):
    version = read_decimal(text)
    if not 1 <= version <= MOST_VERSION:
        raise BadValue
    return version


def read_name(text):
    if not 1 <= len(text) <= MOST_NAME or any(b not in NAME_BYTES for b in text):
        raise BadValue
    return text


def read_truth(text):
    if text == b'true':
        return True
    if text == b'false':
        return False
    raise BadValue


def read_constraint(text):
    """(name, operator or None, version or None)"""
    text = text.strip(b' ')
    end = 0
    while end < len(text) and text[end] in NAME_BYTES:
        end += 1
    name = read_name(text[:end])
    rest = text[end:].lstrip(b' ')
    if rest == b'':
        return name, None, None
    for operator in (b'>=', b'<=', b'!=', b'=', b'>', b'<'):
        if rest.startswith(operator):
            return name, operator, read_version(rest[len(operator):].lstrip(b' '))
    raise BadValue


def read_constraints(text):
    if text == b'':
        return []
    return [read_constraint(part) for part in text.split(b',')]


def read_conjuncts(text):
    if text == b'':
        return []
    return [[read_constraint(c) for c in part.split(b'|')] for part in text.split(b',')]


def satisfies(stanza, constraint):
    name, operator, w = constraint
    v = stanza['version']
    if stanza['name'] != name:
        return False
    if operator is None:
        return True
    return {b'=': v == w, b'!=': v != w, b'>': v > w, b'>=': v >= w, b'<': v < w, b'<=': v <= w}[operator]


# ---------------------------------------------------------------- problem

LATER = {
    'package': {b'version': read_version, b'depends': read_conjuncts, b'conflicts': read_constraints,
                b'installed': read_truth},
    'request': {b'install': read_constraints, b'remove': read_constraints},
}


def read_stanzas(reader, lines, form_fault):
    for number, line, ended in lines:
        if is_form_fault(line, ended):
            reader.refuse(number, form_fault)
        if line == b'':
            reader.end_stanza()
        elif reader.current is None:
            reader.first_line(number, *property_of(line))
        else:
            reader.later_line(number, *property_of(line))
    reader.end_stanza()


class ProblemReader:
    def __init__(self):
        self.stanzas = []
        self.request = None
        self.current = None
        self.kind = None
        self.constraints = 0

    def refuse(self, place, number):
        raise Refused('problem', place, number)

    def first_line(self, number, key, value):
        if key not in (b'package', b'request') or self.request is not None:
            self.refuse(number, 2)
        if key == b'request':
            self.kind = 'request'
            self.current = self.request = {'line': number}
            return
        try:
            name = read_name(value)
        except BadValue:
            self.refuse(number, 3)
        if len(self.stanzas) == MOST_STANZAS:
            self.refuse(number, 31)
        self.kind = 'package'
        self.current = {'line': number, 'name': name}
        self.stanzas.append(self.current)

    def later_line(self, number, key, value):
        allowed = LATER[self.kind]
        if key not in allowed or key.decode() in self.current:
            self.refuse(number, 2)
        try:
            read = allowed[key](value)
        except BadValue:
            self.refuse(number, 3)
        if key == b'depends':
            self.count(number, sum(len(conjunct) for conjunct in read))
        elif key in (b'conflicts', b'install', b'remove'):
            self.count(number, len(read))
        self.current[key.decode()] = read

    def count(self, number, more):
        self.constraints += more
        if self.constraints > MOST_CONSTRAINTS:
            self.refuse(number, 31)

    def end_stanza(self):
        if self.kind == 'package' and 'version' not in self.current:
            self.refuse(self.current['line'], 2)
        self.kind = self.current = None

    def read(self, text):
        lines = document_lines(text)
        read_stanzas(self, lines, 1)
        if self.request is None:
            self.refuse(len(lines) + 1, 2)
        seen = set()
        for stanza in self.stanzas:
            key = stanza['name'], stanza['version']
            if key in seen:
                self.refuse(stanza['line'], 4)
            seen.add(key)
        return self.stanzas, self.request


# ---------------------------------------------------------------- answer

FAIL = 'FAIL'


class AnswerReader:
    def __init__(self, stanzas):
        self.number = {(s['name'], s['version']): i + 1 for i, s in enumerate(stanzas)}
        self.given = set()
        self.chosen = set()
        self.current = None
        self.count = 0

    def refuse(self, place, number):
        raise Refused('answer', place, number)

    def first_line(self, number, key, value):
        if key != b'package':
            self.refuse(number, 11)
        try:
            name = read_name(value)
        except BadValue:
            self.refuse(number, 11)
        if self.count == MOST_STANZAS:
            self.refuse(number, 31)
        self.count += 1
        self.current = {'line': number, 'name': name}

    def later_line(self, number, key, value):
        allowed = {b'version': read_version, b'installed': read_truth}
        if key not in allowed or key.decode() in self.current:
            self.refuse(number, 11)
        try:
            self.current[key.decode()] = allowed[key](value)
        except BadValue:
            self.refuse(number, 11)

    def end_stanza(self):
        if self.current is None:
            return
        line = self.current['line']
        if 'version' not in self.current:
            self.refuse(line, 11)
        j = self.number.get((self.current['name'], self.current['version']))
        if j is None or j in self.given:
            self.refuse(line, 12)
        self.given.add(j)
        if self.current.get('installed', False):
            self.chosen.add(j)
        self.current = None

    def read(self, text):
        if text == b'FAIL\n':
            return FAIL
        read_stanzas(self, document_lines(text), 11)
        return self.chosen


# ---------------------------------------------------------------- plans


def is_plan(problem, chosen):
    """Over sets, without clauses; here only to be compared with the clauses."""
    stanzas, request = problem
    inside = [(j, stanzas[j - 1]) for j in sorted(chosen)]

    def met(constraint, but=None):
        return any(satisfies(s, constraint) for j, s in inside if j != but)

    for i, stanza in inside:
        if not all(any(met(c) for c in conjunct) for conjunct in stanza.get('depends', [])):
            return False
        if any(met(c, but=i) for c in stanza.get('conflicts', [])):
            return False
    if not all(met(c) for c in request.get('install', [])):
        return False
    return not any(met(c) for c in request.get('remove', []))


def plan_clauses(problem):
    stanzas, request = problem

    def meeting(constraints):
        return [j for j, s in enumerate(stanzas, 1) if any(satisfies(s, c) for c in constraints)]

    for i, stanza in enumerate(stanzas, 1):
        for conjunct in stanza.get('depends', []):
            some = meeting(conjunct)
            if i not in some:
                yield sorted([-i] + some, key=abs)
        for constraint in stanza.get('conflicts', []):
            for j in meeting([constraint]):
                if j != i:
                    yield sorted([-i, -j], key=abs)
    for constraint in request.get('install', []):
        yield meeting([constraint])
    for constraint in request.get('remove', []):
        for j in meeting([constraint]):
            yield [-j]


def first_false(problem, chosen):
    for number, clause in enumerate(plan_clauses(problem), 1):
        if not any((abs(l) in chosen) == (l > 0) for l in clause):
            return number
    return None


def names_of(stanzas):
    """The names by first stanza: (numbers of its stanzas, numbers of its installed ones)."""
    names = {}
    for j, stanza in enumerate(stanzas, 1):
        every, installed = names.setdefault(stanza['name'], ([], []))
        every.append(j)
        if stanza.get('installed', False):
            installed.append(j)
    return list(names.values())


def pair(problem, chosen):
    removed = changed = 0
    for every, installed in names_of(problem[0]):
        now = [j for j in every if j in chosen]
        if installed and not now:
            removed += 1
        if now != installed:
            changed += 1
    return removed, changed


# ---------------------------------------------------------------- opening


def counter(inputs, register, bound):
    if bound == 0:
        return
    for i, x in enumerate(inputs, 1):
        yield [-x, register(i, 1)]
        if i == 1:
            continue
        for j in range(1, bound + 1):
            yield [-register(i - 1, j), register(i, j)]
        for j in range(1, bound):
            yield [-x, -register(i - 1, j), register(i, j + 1)]


def opening(problem, claim):
    """V and the clauses. The claim is None on FAIL, else the pair."""
    stanzas = problem[0]
    if claim is None:
        return len(stanzas), plan_clauses(problem)
    r, c = claim
    names = names_of(stanzas)
    at_start = [every for every, installed in names if installed]
    m, n, N = len(stanzas), len(at_start), len(names)
    z = m + n + N + 1

    def s(i, j):
        return z + (i - 1) * (r + 1) + j

    def t(i, j):
        return z + n * (r + 1) + (i - 1) * c + j

    removed = [m + i for i in range(1, n + 1)]
    changed = [m + n + i for i in range(1, N + 1)]

    def clauses():
        yield from plan_clauses(problem)
        for every, a in zip(at_start, removed):
            yield every + [a]
        for (every, installed), d in zip(names, changed):
            for j in every:
                yield [j if j in installed else -j, d]
        yield from counter(removed, s, r + 1)
        yield from counter(changed, t, c)
        if n > 0:
            yield [-s(n, r + 1)]
        yield [-z, -s(n, r)] if r > 0 else [-z]
        yield [z, -t(N, c)] if c > 0 else [z]

    return z + n * (r + 1) + N * c, clauses()


# ---------------------------------------------------------------- clause base


class Base:
    """Live clauses and unit propagation. A trial's values are a set of true literals."""

    def __init__(self, variables):
        self.variables = variables
        self.live = {}
        self.next = 1
        self.literals = 0
        self.short = set()   # numbers of live clauses with at most one literal
        self.holding = {}    # literal -> numbers of live clauses that hold it

    def fits(self, clause):
        return (self.variables <= ROOM_VARIABLES and len(self.live) + 1 <= ROOM_CLAUSES
                and self.literals + len(clause) <= ROOM_LITERALS and self.next <= MOST_NUMBER)

    def is_well_formed(self, clause):
        variables = [abs(l) for l in clause]
        return all(1 <= v <= self.variables for v in variables) and len(set(variables)) == len(variables)

    def add(self, clause):
        number = self.next
        self.live[number] = list(clause)
        self.next += 1
        self.literals += len(clause)
        if len(clause) <= 1:
            self.short.add(number)
        for l in clause:
            self.holding.setdefault(l, set()).add(number)

    def delete(self, number):
        clause = self.live.pop(number)
        self.literals -= len(clause)
        self.short.discard(number)
        for l in clause:
            self.holding[l].discard(number)

    def hint(self, true, number):
        """What the clause is under these values: 'conflict', 'useless', or its one unset literal."""
        unset = []
        for l in self.live[number]:
            if l in true:
                return 'useless'
            if -l not in true:
                unset.append(l)
                if len(unset) > 1:
                    return 'useless'
        return unset[0] if unset else 'conflict'

    def follows(self, clause):
        true = set(-l for l in clause)
        waiting = list(true)
        todo = list(self.short)
        while True:
            for number in todo:
                said = self.hint(true, number)
                if said == 'conflict':
                    return True
                if said != 'useless':
                    true.add(said)
                    waiting.append(said)
            if not waiting:
                return False
            todo = list(self.holding.get(-waiting.pop(), ()))

    def follows_by(self, clause, hints, place):
        true = set(-l for l in clause)
        for i, number in enumerate(hints):
            if number not in self.live:
                raise Refused('certificate', place, 23)
            said = self.hint(true, number)
            if said == 'conflict':
                return i + 1 == len(hints)
            if said == 'useless':
                return False
            true.add(said)
        return False


# ---------------------------------------------------------------- certificates


def text_number(word):
    if not 1 <= len(word) <= 7 or any(b not in DIGITS for b in word):
        raise BadValue
    return read_decimal(word)


def text_literal(word):
    if word[:1] == b'-':
        value = text_number(word[1:])
        if value == 0:
            raise BadValue
        return -value
    return text_number(word)


def text_step(line):
    words = line.split(b' ')
    if words[0] == b'd':
        if len(words) != 3 or words[2] != b'0':
            raise BadValue
        return 'delete', text_number(words[1])
    literals = [text_literal(word) for word in words]
    if literals.pop() != 0 or 0 in literals or len(literals) > MOST_CLAUSE_LITERALS:
        raise BadValue
    return 'add', literals, None


def text_steps(data):
    for place, line, ended in document_lines(data):
        try:
            if not ended:
                raise BadValue
            step = text_step(line)
        except BadValue:
            raise Refused('certificate', place, 21)
        yield place, step


def hinted_steps(data):
    if len(data) < 8:
        raise Refused('certificate', 0, 21)
    stated = struct.unpack('<I', data[-8:-4])[0]
    records = data[:-8]
    at = place = 0

    def take(form):
        nonlocal at
        size = struct.calcsize(form)
        if at + size > len(records):
            raise Refused('certificate', place, 21)
        got = struct.unpack(form, records[at:at + size])
        at += size
        return got

    while at < len(records):
        place += 1
        kind, = take('<B')
        if kind == 0x64:
            number, = take('<I')
            yield place, ('delete', number)
        elif kind == 0x61:
            n, = take('<H')
            if n > MOST_CLAUSE_LITERALS:
                raise Refused('certificate', place, 21)
            literals = list(take('<%di' % n))
            m, = take('<H')
            hints = list(take('<%dI' % m))
            yield place, ('add', literals, hints)
        else:
            raise Refused('certificate', place, 21)
    if place != stated:
        raise Refused('certificate', 0, 21)


def steps_of(data):
    return hinted_steps(data) if data.endswith(b'HINT') else text_steps(data)


# ---------------------------------------------------------------- session


def open_session(problem, claim):
    variables, clauses = opening(problem, claim)
    if variables > ROOM_VARIABLES:
        raise Refused('certificate', 0, 32)
    base = Base(variables)
    for clause in clauses:
        if not base.fits(clause):
            raise Refused('certificate', 0, 32)
        base.add(clause)
    return base


def ask(base, place, step):
    """Takes one step or refuses it; says whether it added the empty clause."""
    def refuse(number):
        raise Refused('certificate', place, number)

    if step[0] == 'delete':
        if step[1] not in base.live:
            refuse(23)
        base.delete(step[1])
        return False
    _, literals, hints = step
    if hints is not None and len(hints) > ROOM_HINTS:
        refuse(31)
    if not base.is_well_formed(literals):
        refuse(22)
    shown = base.follows(literals) if hints is None else base.follows_by(literals, hints, place)
    if not shown:
        refuse(24)
    if not base.fits(literals):
        refuse(32)
    base.add(literals)
    return literals == []


def check(problem_text, answer_text, certificate):
    for name, data in zip(FILES, (problem_text, answer_text, certificate)):
        if len(data) > MOST_BYTES:
            raise Refused(name, 0, 34)
    problem = ProblemReader().read(problem_text)
    answer = AnswerReader(problem[0]).read(answer_text)
    claim = None
    if answer != FAIL:
        false = first_false(problem, answer)
        if false is not None:
            raise Refused('answer', false, 13)
        claim = pair(problem, answer)
        if certificate == b'':
            return 'PLAN %d %d' % claim
    base = open_session(problem, claim)
    last = 0
    for place, step in steps_of(certificate):
        if ask(base, place, step):
            return 'IMPOSSIBLE' if claim is None else 'OPTIMAL %d %d' % claim
        last = place
    raise Refused('certificate', last + 1, 25)


def line_for(problem, answer, certificate):
    try:
        return check(problem, answer, certificate)
    except Refused as refused:
        return 'REFUSED %s %d %d' % (refused.file, refused.place, refused.number)


def read_file(name):
    try:
        f = open(name, 'rb', buffering=0)
    except IsADirectoryError:   # it could be opened, only Python looks further
        raise
    except OSError:
        return b''
    with f:
        data = b''
        while len(data) <= MOST_BYTES:
            more = f.read(MOST_BYTES + 1 - len(data))
            if not more:
                break
            data += more
        return data


def main():
    try:
        files = [read_file(name) for name in FILES]
    except OSError as error:
        sys.exit('upcheck: %s' % error)
    sys.stdout.buffer.write(line_for(*files).encode() + b'\n')


if __name__ == '__main__':
    main()
