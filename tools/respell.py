#!/usr/bin/env python3
"""Respells the repository's own names in specs/, proofs/ and clauses: words in snake case, types in camel case.

    python3 tools/respell.py [--list]

Run once, at the top, after the kit's own script for older repositories. A name counts as the repository's own where a file of
specs/ or a lemma file of proofs/ declares it: a definition, a lemma, a field, a constructor or a variable. Names of the kit's
libraries and the labels that the check makes keep their dashes. Functions of src/, strings and comments are left as they are, but
for a comment of specs/ or proofs/ that names a definition between backquotes.
"""
import glob
import re
import sys

NAME = r"[A-Za-zΑ-ω_][\w'′]*(?:-[\w'′]+)+"
TOKEN = re.compile(r"(?<![\w'′·-])" + NAME + r"(?![\w'′-])")
OWN = {line.split(':')[0].strip() for line in open('crates.txt') if line.strip() and not line.startswith('#')}
# Labels of the check, in the parts of their names.
LABEL = re.compile(
    r'^(returns|invariant|decreases|loop|overflow|bounds|slice_bounds|index|in_ok|in_err|in_default|then|else|if|deref|invariant_of)-'
    r'|-(requires|init|preserved|smaller|test)(-|$)|^in-(Some|None|Ok|Err|[A-Z0-9])|^(field|copy-from-slice|the-)|-in-loop-'
)


# Names that would fall together with a function of src/ or a word of std.
APART = {
    'to-edges': 'pass_to_edges',
    'to-vertices': 'pass_to_vertices',
    'part-number': 'number_of_part',
    'if-turn': 'if_turn',
    'Is-refused': 'RefusedCase',
    'Is-without-memory': 'NoMemoryCase',
    'bit-and': 'bit-bit_and',
    'bit-or': 'bit-bit_or',
}


def snake(name):
    if name in APART:
        return APART[name]
    if name[0].isupper():
        return ''.join(part[0].upper() + part[1:] for part in name.split('-'))
    return name.replace('-', '_')


def uncommented(text):
    return re.sub(r'(?m)(^|\s)--\s.*$', r'\1', text)


def imported(text):
    """The names that a file takes from libraries which are not the repository's."""
    found = set()
    for path, names in re.findall(r'use\s+([^\s{;]+)\.\{([^}]*)\}', text):
        parts = path.split('.')
        own = parts[0] == 'Rattle' and len(parts) > 1 and parts[1] in OWN and 'Goals' not in parts and 'Given' not in parts
        if not own:
            for item in names.split(','):
                found.add(item.split(' as ')[-1].strip())
    return found


def main():
    lemma_files = [f for f in glob.glob('crates/*/specs/*.antt') + glob.glob('crates/*/proofs/*.antt')]
    owned, foreign = set(), set()
    for f in lemma_files:
        text = uncommented(open(f).read())
        names = imported(text)
        foreign |= names
        owned |= {t for t in TOKEN.findall(text) if t not in names and not LABEL.search(t)}
    # Lemmas that stand in an answer file of their own.
    for f in glob.glob('crates/*/proofs/**/*.antt', recursive=True):
        if f in lemma_files:
            continue
        text = uncommented(open(f).read())
        names = imported(text)
        foreign |= names
        for name, kind in re.findall(r'(?m)^(?:abbrev |pub |unfoldable )*(' + NAME + r') : (.*)', text):
            if not kind.startswith('goal.') and name not in names and not LABEL.search(name):
                owned.add(name)
    owned -= foreign
    owned |= set(APART)
    renamed = {old: snake(old) for old in owned}
    if '--list' in sys.argv:
        for old in sorted(renamed):
            print(old, renamed[old])
        return
    replace = lambda m: renamed.get(m.group(0), m.group(0))
    for f in glob.glob('crates/*/specs/**/*.antt', recursive=True) + glob.glob('crates/*/proofs/**/*.antt', recursive=True):
        out = []
        for line in open(f).read().split('\n'):
            m = re.match(r'^(.*?)((?:^|\s)--\s.*)$', line)
            code, comment = (m.group(1), m.group(2)) if m else (line, '')
            comment = re.sub('`(' + NAME + ')`', lambda m: '`' + renamed.get(m.group(1), m.group(1)) + '`', comment)
            out.append(TOKEN.sub(replace, code) + comment)
        write(f, '\n'.join(out))
    for f in glob.glob('crates/*/src/**/*.rt', recursive=True):
        out = []
        for line in open(f).read().split('\n'):
            code, slashes, comment = line.partition('//')
            if '"' not in code:
                code = TOKEN.sub(replace, code)
            out.append(code + slashes + comment)
        write(f, '\n'.join(out))


def write(f, text):
    if open(f).read() != text:
        open(f, 'w').write(text)


main()
