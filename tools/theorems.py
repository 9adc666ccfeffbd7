#!/usr/bin/env python3
"""Sets the laws and worked examples of proofs/ beside those of an older commit.

usage: python3 tools/theorems.py COMMIT       at the top; prints the counts, then each statement that changed, went or came, old above new

A statement is what stands after a name's ` : `, with the parameters of the modules around it before a `⊢`. Answers and invariants of functions are left out:
they are no laws. Statements that differ by the names in RENAMED and CASES alone are counted and not printed.
"""

import re
import subprocess
import sys

RENAMED = [
    ('CableCheck', 'Result Cable Refusal'), ('HeaderCheck', 'Result Header Refusal'), ('TrenchCheck', 'Result Trench Refusal'),
    ('RecordCheck', 'Result LoadRecord Refusal'), ('ChainCheck', 'Result ⊤ Refusal'), ('RecordRead', 'Option LoadRecord'),
    ('Turn', 'Result Reached Refusal'),
]
CASES = [
    (r'\b[A-Z]\.Accepted\b|\bAccepted\b', 'Ok'), (r'\b[KCHT]\.Refused\b|\bRefused\b|\bErr\b', 'Err'), (r'\bHeld\b', 'Some'),
    (r'\bMissing\b', 'None'), (r'\bK\.Passed\b|\bPassed\b', '(Ok tt)'), (r'\bT\.Next\b|\bNext\b', 'Ok'),
]
HEAD = re.compile(r'^(\s*)(?:abbrev |unfoldable |pub )*([^\s:{}()]+) : (.*)$')


def git(*words):
    return subprocess.run(['git', *words], capture_output=True, text=True, check=True).stdout


def files(commit):
    for path in git('ls-tree', '-r', '--name-only', commit, 'crates').split('\n'):
        if re.match(r'crates/[^/]+/proofs/.*\.antt$', path) and not re.search(r'/(Answers|Invariants)\.antt$', path):
            yield path, git('show', commit + ':' + path)


def statements(text):
    lines, around, found = text.split('\n'), [], {}
    for i, line in enumerate(lines):
        depth = len(line) - len(line.lstrip())
        if line.strip():
            around = [a for a in around if a[0] < depth]
        module = re.match(r'^(\s*)module _ (.*) where', line)
        if module:
            around.append((depth, module.group(2)))
        head = HEAD.match(line)
        if not head or line.lstrip().startswith(('--', 'let ', 'use ')):
            continue
        said, j = head.group(3), i + 1
        while j < len(lines) and re.match(r'^\s+(→|×)', lines[j]):
            said, j = said + ' ' + lines[j].strip(), j + 1
        found[head.group(2)] = ' '.join(a[1] for a in around) + ' ⊢ ' + said
    return found


def renamed(said):
    for old, new in RENAMED:
        said = re.sub(r'\b' + old + r'\b', new, said)
    for old, new in CASES:
        said = re.sub(old, new, said)
    return said


def main(commit):
    old = {path: statements(text) for path, text in files(commit)}
    new = {path: statements(text) for path, text in files('HEAD')}
    same, names, rows = 0, 0, {'changed': [], 'gone': [], 'new': []}
    for path in sorted(set(old) | set(new)):
        before, after = old.get(path, {}), new.get(path, {})
        for name in sorted(set(before) | set(after)):
            a, b = before.get(name), after.get(name)
            if a == b:
                same += 1
            elif a and b and renamed(a) == renamed(b):
                names += 1
            else:
                rows['changed' if a and b else 'gone' if a else 'new'].append((path, name, a, b))
    print(f"statements: the same {same}, the same but for names {names}, " + ', '.join(f'{k} {len(v)}' for k, v in rows.items()))
    for kind, found in rows.items():
        for path, name, a, b in found:
            print(f"{kind}: {path.removeprefix('crates/').replace('/proofs/', ' ')} {name}")
            print(*(f'    {sign} {said}' for sign, said in (('-', a), ('+', b)) if said), sep='\n')


main(sys.argv[1])
