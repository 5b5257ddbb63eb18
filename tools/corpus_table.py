#!/usr/bin/env python3
"""Turn a corpus of cases into a table that a program can read without JSON or base64.

    python3 corpus_table.py CORPUS.jsonl.gz TABLE EXPECTED [--plain]

CORPUS has one case a line: `name`, `files` (problem, answer, certificate in base64; an absent one
counts as empty) and `expected`, the line with its LF.

TABLE gets for each selected case a header line `CASE n p a c`, ended by LF: the case's number in
the corpus, from 1, and the lengths of problem, answer and certificate in bytes, all decimal. Then
come the bytes of the three files, one after the other, and LF. EXPECTED gets the expected lines of
the selected cases, in the same order.

--plain selects only cases whose certificate is empty and whose answer is not exactly FAIL and LF:
those that need a plan check and no session.
"""

import argparse
import base64
import collections
import gzip
import json

FILES = ('problem', 'answer', 'certificate')


def load(path):
    with gzip.open(path, 'rt') as rows:
        for number, row in enumerate(rows, 1):
            case = json.loads(row)
            files = [base64.b64decode(case['files'].get(name, '')) for name in FILES]
            yield number, files, case['expected'].encode()


def is_plain(files):
    problem, answer, certificate = files
    return certificate == b'' and answer != b'FAIL\n'


def kind(expected):
    words = expected.decode().split()
    return '%s %s %s' % (words[0], words[1], words[3]) if words[0] == 'REFUSED' else words[0]


def entry(number, files):
    header = 'CASE %d %d %d %d\n' % (number, *map(len, files))
    return header.encode() + b''.join(files) + b'\n'


def order(item):
    words = item[0].split()
    return (len(words), words[:2], int(words[2]) if len(words) > 2 else 0)


def main():
    ap = argparse.ArgumentParser()
    ap.add_argument('corpus')
    ap.add_argument('table')
    ap.add_argument('expected')
    ap.add_argument('--plain', action='store_true')
    args = ap.parse_args()
    kinds = collections.Counter()
    total = 0
    with open(args.table, 'wb') as table, open(args.expected, 'wb') as lines:
        for number, files, expected in load(args.corpus):
            total += 1
            if args.plain and not is_plain(files):
                continue
            table.write(entry(number, files))
            lines.write(expected)
            kinds[kind(expected)] += 1
    for name, count in sorted(kinds.items(), key=order):
        print('%5d  %s' % (count, name))
    print('%5d of %d cases' % (sum(kinds.values()), total))


if __name__ == '__main__':
    main()
