#!/usr/bin/env python3
"""Prints functions of src/ whose bodies are the same but for names and numbers: a group a line, and how many groups."""
import glob
import re

WORDS = set('fn pub let mut if else match while for in return loop break continue as self Self struct enum impl true false'.split())
groups = {}
for path in sorted(glob.glob('crates/*/src/*.rt')):
    text = re.sub(r'//[^\n]*', '', open(path).read())
    for m in re.finditer(r'^( *)(?:pub )?(?:extern "C" )?fn (\w+)', text, re.M):
        start = text.find('\n' + m[1] + '{', m.end())
        end = text.find('\n' + m[1] + '}', start)
        names = {}
        shape = []
        for token in re.findall(r'\w+|[^\w\s]', text[start:end]):
            if re.match(r'\w', token) and token not in WORDS:
                token = '#%d' % names.setdefault(token, len(names))
            shape.append(token)
        if len(shape) > 12:
            groups.setdefault(' '.join(shape), []).append('%s: %s' % (path, m[2]))
twins = [g for g in groups.values() if len(g) > 1]
for g in twins:
    print('; '.join(g))
print(len(twins), 'groups')
