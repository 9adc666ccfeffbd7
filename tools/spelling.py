#!/usr/bin/env python3
"""Spells this repository's own definitions and lemmas in snake case, once, after port.py.

usage: python3 tools/spelling.py LANDED       at the top; LANDED is the commit that port.py began from

A name in camel case or with dashes that a file of specs/ or proofs/ declares gets underscores: sharePair is share_pair. Where a lemma would get a
definition's name, `_lem` stands behind it. Functions of src/, types, modules, strings, inputs and outputs keep their names. Then each must-fail edit is
brought to the text as it now stands: the line that it edited is found again, and what changed of that line's words changes in the new text too.
"""

import collections
import difflib
import glob
import os
import re
import subprocess
import sys

WORD = r'[^\s(){}.;,@"«»:\[\]`]+'
HEAD = re.compile(r"^\s*(?:(?:pub|abbrev|unfoldable|pattern|\||record|data) )*((?:" + WORD + r" )+?)(?:\{[^{}]*\} )*: ")
USE = re.compile(r"(?m)^(?:ghost )?use ([^\s;{]+?)(?:\.\{([^}]*)\})?(?: as (\S+?))?;?$")
NOT_NAMES = {"pub", "abbrev", "unfoldable", "pattern", "|", "record", "data", "=", "→", "let", "where", "module"}
GENERATED = {"tie", "goal"}


def read(p):
    with open(p, encoding="utf-8") as f:
        return f.read()


def write(p, t):
    with open(p, "w", encoding="utf-8") as f:
        f.write(t)


def antt_files():
    return sorted(p for k in ("specs", "proofs") for p in glob.glob(f"crates/*/{k}/**/*.antt", recursive=True))


def declared(text):
    names = set()
    for line in text.split("\n"):
        m = HEAD.match(re.sub(r"--.*", "", line))
        if m:
            names |= {n for n in m[1].split() if n not in NOT_NAMES}
    return names


def snake(n):
    n = re.sub(r"(?<=[a-z0-9₀-₉])[A-Z]", lambda m: "_" + m[0].lower(), n)
    return re.sub(r"(?<=[^-])-(?=[^-])", "_", n)


def turns(n):
    return not n[0].isupper() and not n[0].isdigit() and (re.search(r"[a-z0-9][A-Z]", n) or re.search(r"\w-\w", n))


def table():
    """Old spelling to new, of the names that the files of specs/ and the lemma files declare."""
    where = collections.defaultdict(set)
    for p in antt_files():
        if not p.endswith("/Proof.antt"):
            for n in declared(read(p)):
                where[n].add(p)
    new = {n: snake(n) for n in where if turns(n)}
    meets = collections.defaultdict(set)
    for n in where:
        meets[new.get(n, n)].add(n)
    for to, names in meets.items():
        if len(names) > 1:
            # The definition is the one in camel case.
            kept = [n for n in names if re.search(r"[a-z][A-Z]", n)]
            if len(kept) != 1:
                sys.exit(f"spelling: {names} meet")
            for n in names - set(kept):
                new[n] = to + "_lem"
                print(f"look: {n} is {new[n]}, since {kept[0]} is {to}")
    return new


OWN = set(os.listdir("crates"))


def kit_names(text):
    """What a file imports from the kit, and the names that it gives to modules of the kit."""
    names, heads = set(), set()
    for m in USE.finditer(text):
        steps = m[1].split(".")
        if steps[0] == "Rattle" and len(steps) > 1 and steps[1] in OWN:
            continue
        if m[2]:
            for it in m[2].split(","):
                names |= set(it.split(" as "))  if " as " in it else {it.strip()}
        elif m[3]:
            heads.add(m[3])
        else:
            names.add(steps[-1])
    return {n.strip() for n in names}, heads


def respell(text, new, skip, heads):
    def one(m):
        w = m[0]
        if w not in new or w in skip:
            return w
        before = text[: m.start()]
        head = re.search(r"([\w'-]+)\.$", before)
        if head and (head[1] in heads or head[1] in GENERATED):
            return w
        return new[w]

    return re.sub(WORD, one, text)


def turn_antt(p, new):
    text = read(p)
    local = dict(new)
    if p.endswith("/Proof.antt"):
        local.update({n: snake(n) for n in declared(text) if turns(n)})
    skip, heads = kit_names(text)
    skip -= declared(text)
    out = []
    for line in text.split("\n"):
        code, dash, note = re.match(r"^((?:[^-]|-(?!-)|(?<=\S)--)*?)(?:(?<!\S)(--)(.*))?$", line).groups()
        line = respell(code, local, skip, heads)
        if dash:
            line += dash + turn_prose(note, local)
        out.append(line)
    write(p, "\n".join(out))


def turn_prose(text, new):
    """Names in camel case turn wherever they stand, those with dashes in code spans alone."""
    camel = {n: to for n, to in new.items() if re.search(r"[a-z0-9][A-Z]", n)}
    text = re.sub(r"`[^`\n]*`", lambda m: respell(m[0], new, set(), set()), text)
    return respell(text, camel, set(), set())


CLAUSE = re.compile(r"\b(?:requires|ensures)\s*\*?\s*(?:\w+\s*)?\{|\bghost\s*(?:\w+\s*(?::\s*|=\s*))?\{")


def turn_rt(p, new):
    text = read(p)
    skip, heads = kit_names(text)
    # In the code itself no name has a dash or a camel hump, so only strings have to be left alone.
    parts = re.split(r'(b?"(?:\\.|[^"\\\n])*"|//[^\n]*)', text)
    for i, part in enumerate(parts):
        if i % 2 == 0:
            parts[i] = respell(part, new, skip, heads)
        elif part.startswith("//"):
            parts[i] = turn_prose(part, new)
    write(p, "".join(parts))


# ---- must-fail edits

EDIT = re.compile(r"(?m)^(file|old|new): ?(.*)$")
TOKEN = re.compile(r'[^\s(){}.;,@"«»:\[\]`]+|\s+|.')


def landed(commit, path):
    r = subprocess.run(["git", "show", f"{commit}:{path}"], capture_output=True, text=True)
    return r.stdout if r.returncode == 0 else None


def line_map(old, new):
    """Each line of the old text beside the one that stands for it now."""
    a, b = [re.sub(r"\W", "", x).lower() for x in old], [re.sub(r"\W", "", x).lower() for x in new]
    to = {}
    for tag, i1, i2, j1, j2 in difflib.SequenceMatcher(None, a, b, autojunk=False).get_opcodes():
        if tag == "equal" or i2 - i1 == j2 - j1:
            to.update(zip(range(i1, i2), range(j1, j2)))
        elif tag == "replace":
            for i in range(i1, i2):
                best = max(range(j1, j2), key=lambda j: difflib.SequenceMatcher(None, a[i], b[j], autojunk=False).ratio())
                to[i] = best
    return to


def spelled(text, words):
    for old, now in words:
        text = re.sub(r"(?<![\w'-])" + re.escape(old) + r"(?![\w'-])", lambda m: now, text)
    return text


def turn_edit(p, commit, new, olds, news):
    crate = p.split("/")[1]
    text = read(p)
    file, out, changed, made = None, [], [], {}
    lines = text.split("\n")
    i = 0
    while i < len(lines):
        m = EDIT.match(lines[i])
        if not m or m[1] not in ("file", "old"):
            out.append(turn_prose(lines[i], new) if not m else lines[i])
            i += 1
            continue
        if m[1] == "file":
            file = f"crates/{crate}/{m[2].strip()}"
            out.append(lines[i])
            i += 1
            continue
        was, to = m[2], EDIT.match(lines[i + 1])[2]
        if file not in made:
            made[file] = [olds.setdefault(file, landed(commit, file)), news.setdefault(file, read(file) if os.path.exists(file) else "")]
        before, now = made[file]
        pair = turned(was, to, before, now, new)
        if pair is None or now.count(pair[0]) != 1:
            changed.append((was, to, pair))
            pair = pair or (was, to)
        # A further pair applies to what the earlier ones made.
        made[file] = [before and before.replace(was, to), now.replace(pair[0], pair[1])]
        out += [f"old: {pair[0]}", f"new: {pair[1]}"]
        i += 2
    write(p, "\n".join(out))
    for was, to, pair in changed:
        print(f"left: {p}: '{was}' -> '{pair and pair[0]}'")


def turned(was, to, before, now, new):
    if before is None or before.count(was) != 1:
        return None
    if now.count(was) == 1 and not re.search(r"[a-z][A-Z]|\w-\w", was + to):
        return was, tight(to)
    lo, ln = before.split("\n"), now.split("\n")
    at = before[: before.index(was)].count("\n")
    j = line_map(lo, ln).get(at)
    if j is None:
        return None
    # Token by token: the old line's words beside the new line's.
    a, b = TOKEN.findall(lo[at]), TOKEN.findall(ln[j])
    start = before.index(was) - before.rfind("\n", 0, before.index(was)) - 1
    end = start + len(was)
    sm = difflib.SequenceMatcher(None, [respell_one(x, new) for x in a], b, autojunk=False)
    pos = [0]
    for x in a:
        pos.append(pos[-1] + len(x))
    words, got = [], None
    lo_t = next((k for k in range(len(a)) if pos[k + 1] > start), None)
    hi_t = next((k for k in range(len(a)) if pos[k + 1] >= end), len(a) - 1)
    first = last = None
    for tag, i1, i2, j1, j2 in sm.get_opcodes():
        if tag != "equal":
            words.append(("".join(a[i1:i2]), "".join(b[j1:j2])))
        for k in range(i1, i2):
            if k == lo_t:
                first = j1 + (k - i1) if tag == "equal" or i2 - i1 == j2 - j1 else j1
            if k == hi_t:
                last = j1 + (k - i1) if tag == "equal" or i2 - i1 == j2 - j1 else j2 - 1
    if first is None or last is None:
        return None
    got = "".join(b[first : last + 1])
    # A part of a word at the ends stays a part.
    if pos[lo_t] < start and was[0] not in " ":
        cut = start - pos[lo_t]
        if b[first].startswith(a[lo_t][:cut]):
            got = got[cut:]
    if pos[hi_t + 1] > end:
        cut = pos[hi_t + 1] - end
        if b[last].endswith(a[hi_t][len(a[hi_t]) - cut :]):
            got = got[: len(got) - cut]
    out = respell(to, new, set(), set())
    for old_w, new_w in words:
        if old_w.strip() and len(old_w.strip()) > 1 or old_w.strip() in ("⌜", "⌝"):
            out = out.replace(old_w.strip(), new_w.strip()) if old_w.strip() in out and new_w.strip() not in out else out
    return got, tight(out)


def tight(text):
    """A projection is written tight: `f x .p` is `(f x).p`, and `x .p` is `x.p`. Paths have one form."""
    text = re.sub(r"Rattle·(\w+)·(?:specs|proofs)\.", r"Rattle.\1.", text)
    text = text.replace("Rattle·", "Rattle.")
    atom = r"(?:[\w'-]+(?:\.[\w'-]+)*|\((?:[^()]|\((?:[^()]|\([^()]*\))*\))*\)(?:\.[\w'-]+)*)"
    while True:
        m = re.search(r"((?:" + atom + r" )*" + atom + r") \.([\w'-]+)", text)
        if not m:
            return re.sub(r"(?<![\w'])\(([\w']+(?:\.[\w']+)+)\)", r"\1", text)
        spine, field = m[1], m[2]
        alone = re.fullmatch(atom, spine)
        text = text[: m.start()] + (spine if alone else f"({spine})") + "." + field + text[m.end() :]


def respell_one(w, new):
    return new.get(w, w)


def main(argv):
    if len(argv) != 1:
        sys.exit(__doc__)
    new = table()
    for p in antt_files():
        turn_antt(p, new)
    for p in sorted(glob.glob("crates/*/src/**/*.rt", recursive=True)):
        turn_rt(p, new)
    for c in sorted(OWN):
        if os.path.isdir(f"crates/{c}/src"):
            subprocess.run(["rt", "fmt"], cwd=f"crates/{c}", capture_output=True)
    # An edit's text has the names as they were before port.py: those that it turned read like the others.
    both = dict(new)
    olds, news = {}, {}
    for p in sorted(glob.glob("crates/*/must-fail/*.edit")):
        turn_edit(p, argv[0], both, olds, news)
    for p in ["README.md"] + sorted(glob.glob("docs/**/*.md", recursive=True)):
        write(p, turn_prose(read(p), new))
    print(f"spelling: {len(new)} names")


if __name__ == "__main__":
    main(sys.argv[1:])
