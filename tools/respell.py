#!/usr/bin/env python3
"""Brings the repository's own words of specs/ and proofs/ to the spelling of today's Rattle: functions, lemmas and fields in snake case,
with a dash only between the names of two definitions; a lemma that would have a definition's name gets the ending _lem.

usage: tools/respell.py [--list]      at the top of the repository, once; --list prints the renamings and changes nothing

Names of src/, exported C names, strings, inputs and outputs keep their spelling. Documents follow, in what stands between backquotes.
"""
import os
import re
import sys

# The signature of a definition, a lemma or a field, and any word that may name one.
HEAD = re.compile(r"^ *(?:(?:abbrev|unfoldable|pub) )*([a-z][\w'₀-₉-]*) :(?: |$)", re.M)
TOKEN = re.compile(r"(?<![\w'₀-₉-])[a-z][\w'₀-₉]*(?:-[\w'₀-₉]+)*(?![\w'₀-₉])")
# Lemmas that have the name that a definition in the same file gets.
APART = {
    'crates/layout/proofs/TableLaws.antt': ['fits_in'],
    'crates/master/proofs/ReadLaws.antt': ['is_normal'],
    'crates/model/proofs/TellsOrders.antt': ['select_when'],
    'crates/unit/proofs/SampleLaws.antt': ['taken_at'],
}


def files(top, *endings):
    for folder, dirs, names in os.walk(top):
        dirs[:] = sorted(d for d in dirs if d not in ('out', 'unfinished'))
        for name in sorted(names):
            if name.endswith(endings):
                yield os.path.join(folder, name)


def read(path):
    with open(path, encoding='utf-8') as f:
        return f.read()


def rewrite(path, change):
    text = read(path)
    new = change(text)
    if new != text:
        with open(path, 'w', encoding='utf-8') as f:
            f.write(new)


def snake(part):
    return re.sub(r'(?<=[a-z0-9])([A-Z])', lambda m: '_' + m.group(1).lower(), part)


def declared():
    """The names of definitions, and of lemmas that more than one proof can cite."""
    specs, lemmas = set(), set()
    for path in files('crates', '.antt'):
        if '/specs/' in path:
            specs.update(HEAD.findall(read(path)))
        elif not path.endswith('/Proof.antt'):
            lemmas.update(HEAD.findall(read(path)))
    return specs, lemmas


def prelude():
    """The words of the library's that the repository imports."""
    lists = re.findall(r'use Rattle\.\w+\.specs\.Prelude\.\{([^}]*)\}', ' '.join(read(p) for p in files('crates', '.antt', '.rt')))
    return {w for w in re.findall(r"[\w']+", ' '.join(lists)) if w[0].islower()}


def renamings():
    specs, lemmas = declared()
    words = {snake(s) for s in specs if '-' not in s} | prelude()
    to = {}
    for name in sorted(specs | lemmas):
        parts = [snake(p) for p in name.split('-')]
        new = parts[0]
        for before, part in zip(parts, parts[1:]):
            new += ('-' if part in words and before in words else '_') + part
        if new != name:
            to[name] = new
    defined = {to.get(s, s) for s in specs}
    for name in sorted(lemmas - specs):
        if to.get(name) in defined:
            to[name] += '_lem'
    return to, specs


def main():
    to, specs = renamings()
    if sys.argv[1:] == ['--list']:
        print('\n'.join(f'{name} {new}' for name, new in sorted(to.items())))
        return

    def turned(text):
        return TOKEN.sub(lambda m: to.get(m.group(0), m.group(0)), text)

    def camel(text):
        return TOKEN.sub(lambda m: to.get(m.group(0), m.group(0)) if re.search('[a-z][A-Z]', m.group(0)) else m.group(0), text)

    for path, names in APART.items():
        pattern = re.compile(rf"(?<![\w.'-])({'|'.join(names)})(?![\w'-])")
        rewrite(path, lambda text: pattern.sub(r'\1_lem', text))
    for path in files('crates', '.antt', '.edit'):
        rewrite(path, turned)
    for path in files('crates', '.rt'):
        rewrite(path, lambda text: TOKEN.sub(lambda m: to[m.group(0)] if m.group(0) in specs and m.group(0) in to else m.group(0), text))
    for path in [p for p in files('.', '.md') if p.startswith(('./docs', './README', './CON', './CHANGE'))]:
        rewrite(path, lambda text: re.sub(r'`[^`\s]*`', lambda m: turned(m.group(0)), camel(text)))


if __name__ == '__main__':
    main()
