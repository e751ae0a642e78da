#!/usr/bin/env python3
"""Lists the functions of src/ whose bodies are the same, or nearly, but for names, numbers and texts.

usage: tools/twins.py [FOLDER]     at the top of the repository, or FOLDER

`same` is a group of bodies that are equal so; `near` a pair of which nine parts in ten are. Bodies of a few words are left out.
"""
import difflib
import glob
import itertools
import os
import re
import sys

KEYWORDS = set('let mut if else while for in match return fn pub as loop break continue true false ref impl self Self struct enum'.split())
TOKEN = re.compile(r'b?"(?:[^"\\]|\\.)*"|b\'.\'|\w+|[^\s\w]')


def shape(body):
    """A body's tokens, with `_` for a name and `#` for a number or a text."""
    tokens = []
    for token in TOKEN.findall(re.sub(r'//.*', '', body)):
        if token in KEYWORDS or not re.match(r'\w|b?"', token):
            tokens.append(token)
        else:
            tokens.append('#' if re.match(r'b?"|b\'|\d', token) else '_')
    return tokens


def functions(root):
    """Each function's place and the shape of its body."""
    for path in sorted(glob.glob(os.path.join(root, 'crates/*/src/*.rt'))):
        text = open(path).read()
        for found in re.finditer(r'^( *)(?:pub(?:\([a-z]+\))? )?(?:const )?fn (\w+)', text, re.M):
            indent, name = found.groups()
            rest = text[found.start():]
            body = (re.search(r'\n' + indent + r'\{\n(.*?)\n' + indent + r'\}\n', rest, re.S)
                    or re.search(r'\{\n(.*?)\n' + indent + r'\}\n', rest, re.S))
            if body:
                yield os.path.relpath(path, os.path.join(root, 'crates')) + ':' + name, shape(body.group(1))


def main():
    found = list(functions(sys.argv[1] if len(sys.argv) > 1 else '.'))
    count = 0
    same = {}
    for place, tokens in found:
        if len(tokens) >= 12:
            same.setdefault(' '.join(tokens), []).append(place)
    for places in same.values():
        if len(places) > 1:
            count += 1
            print('same:', ', '.join(places))
    for (one, left), (other, right) in itertools.combinations(found, 2):
        longest = max(len(left), len(right))
        if min(len(left), len(right)) < 25 or left == right or abs(len(left) - len(right)) > 0.2 * longest:
            continue
        ratio = difflib.SequenceMatcher(None, left, right).ratio()
        if ratio >= 0.9:
            count += 1
            print('near %.2f: %s, %s' % (ratio, one, other))
    print('groups:', count)


main()
