#!/usr/bin/env python3
"""Respells the repository's own antt names: words in snake case, where the older form joined them by dashes.

Run once, at the top of the repository, after the kit's port.py. It collects every dashed name that a file of specs/ or
proofs/ defines or binds, and rewrites it in those files, in the clauses and ghost lines of src/ and in must-fail edits.
Comments, texts in quotes, Rust code and the names of goals, which the checker makes, stay as they are.
A dash stays where a lemma's name joins the names of two functions, the outer call first, as in length-tickets."""
import glob
import re
import sys

JOINED = {
    'length-tickets': 'length-tickets',
    'lookup-replaced': 'lookup-replaced',
    'lookup-without': 'lookup-without',
    'volumes-replaced': 'volumes-replaced',
    'volumes-without': 'volumes-without',
    'natAbs-neg': 'nat_abs-neg',
    'natAbs-times': 'nat_abs-times',
    'natAbs-quot': 'nat_abs-quot',
    'natAbs-side': 'nat_abs-side',
    'natAbs-diff': 'nat_abs-diff',
}
# names that the checker makes: goals, invariants, measures
MADE = re.compile(r'(overflow|returns|loop|invariant|decreases|then|else|in|push|bounds)-|.*-(requires|preserved|init)$')
TOKEN = r"[^\s(){}\[\]:=.,;«»λ`\"]+"
DEFINED = re.compile(r"^\s*(?:abbrev |unfoldable |pub |data |record )*(" + TOKEN + r") :(?= )", re.M)
BOUND = re.compile(r"\b(?:let|λ) \(?(" + TOKEN + r")")


def antt_files():
    for part in ('specs', 'proofs'):
        yield from sorted(glob.glob(f'crates/*/{part}/**/*.antt', recursive=True))


def renames():
    names = set()
    for path in antt_files():
        with open(path, encoding='utf8') as f:
            text = re.sub(r'--.*', '', f.read())
        for pattern in (DEFINED, BOUND):
            names.update(m.group(1) for m in pattern.finditer(text))
    dashed = {n for n in names if re.search(r'\w-\w', n) and not MADE.match(n)}
    new = {n: JOINED.get(n, n.replace('-', '_')) for n in dashed}
    taken = {}
    for n in sorted(names | set(new)):
        taken.setdefault(new.get(n, n), []).append(n)
    together = {k: v for k, v in taken.items() if len(v) > 1}
    if together:
        sys.exit(f'names that fall together: {together}')
    return new


def respelled(new, text):
    return re.sub(TOKEN, lambda m: new.get(m.group(0), m.group(0)), text)


def outside(pattern, change, text):
    """Changes what lies outside the parts that the pattern matches."""
    out, at = [], 0
    for m in re.finditer(pattern, text):
        out += [change(text[at:m.start()]), m.group(0)]
        at = m.end()
    return ''.join(out + [change(text[at:])])


def main():
    new = renames()
    change = lambda text: respelled(new, text)
    for path in antt_files():
        rewrite(path, r'--.*', change)
    for path in sorted(glob.glob('crates/*/src/**/*.rt', recursive=True)):
        rewrite(path, r'//.*|"(?:[^"\\\n]|\\.)*"', change)
    for path in sorted(glob.glob('crates/*/must-fail/*.edit')):
        rewrite(path, r'"(?:[^"\\\n]|\\.)*"', change)
    for old, name in sorted(new.items()):
        if old != name:
            print(old, '->', name)


def rewrite(path, kept, change):
    with open(path, encoding='utf8') as f:
        text = f.read()
    now = outside(kept, change, text)
    if now != text:
        with open(path, 'w', encoding='utf8') as f:
            f.write(now)


if __name__ == '__main__':
    main()
