#!/usr/bin/env python3
"""Prints pairs of functions in crates/*/src that are alike but for names, types and constants.

    python3 tools/twins.py [TOP]

Comments and contracts are left out, all names, numbers and literals count as one word, and two functions are a pair if 19 of 20 words
agree. Functions of fewer than 30 words, signature included, are left out."""
import difflib
import pathlib
import re
import sys

KEYWORDS = {'fn', 'let', 'mut', 'if', 'else', 'for', 'in', 'while', 'match', 'return', 'pub', 'self', 'Self', 'Ok', 'Err', 'Some', 'None', 'as', 'impl', 'where'}
WORD = re.compile(r"[A-Za-z_]\w*!?|b?'[^']'|b?\"[^\"]*\"|\d\w*|[^\s\w]")
FUNCTION = re.compile(r'^( *)(?:pub(?:\(crate\))? )?fn (\w+)', re.M)
CLAUSE = re.compile(r'^ *(?:ensures|requires|ghost) .*$', re.M)


def functions(path):
    text = re.sub(r'//.*', '', path.read_text())
    for found in FUNCTION.finditer(text):
        end = re.compile(r'^%s\}' % found.group(1), re.M).search(text, found.end())
        body = CLAUSE.sub('', text[found.start():end.end() if end else len(text)])
        if ';' in re.sub(r'\[[^\]]*\]', '', body.split('{')[0]):
            continue
        shape = []
        for word in WORD.findall(body):
            plain = word in KEYWORDS or not re.match(r"[\w'\"]", word)
            shape.append(word if plain else 'name')
        if len(shape) >= 30:
            yield '%s:%d %s' % (path, text[:found.start()].count('\n') + 1, found.group(2)), shape


top = pathlib.Path(sys.argv[1] if len(sys.argv) > 1 else '.')
every = [f for path in sorted(top.glob('crates/*/src/**/*.rt')) for f in functions(path)]
pairs = 0
for i, (one, a) in enumerate(every):
    for other, b in every[i + 1:]:
        ratio = difflib.SequenceMatcher(None, a, b, autojunk=False).ratio()
        if ratio >= 0.95:
            pairs += 1
            print('%.2f  %s  |  %s' % (ratio, one, other))
print(pairs, 'pairs of', len(every), 'functions')
