#!/usr/bin/env python3
"""Spells the repository's own definitions and lemmas as today's Rattle does, by respelled.tsv beside this file: words in snake case, a dash
between two names alone. It ran after the kit's port.py, and again when the table had grown; a further run changes nothing.

usage: tools/respell.py [FOLDER]      the repository, or a checkout of another commit

What turns: in .antt files every whole word but one that the file imports from a library; in .rt files clauses and `ghost use` items; in
edits the texts of .antt files and the line of what is refused; in pages and comments names in camel case, and in pages dashed names in
code spans too. Functions of src/ keep their names, and docs/PORT.md, which sets the older names beside today's, stays as it is.
"""
import re
import sys
from pathlib import Path

TABLE = dict(line.split('\t') for line in (Path(__file__).parent / 'respelled.tsv').read_text().splitlines())
WORD = re.compile(r'[^\s(){}\[\].;,@"`:]+')
# a definition of Promises.antt that gives a type, where a field of other records has the same name
PROMISE = 'given', 'Given'


def humped(word):
    return re.search(r'[a-z0-9][A-Z]', word)


def respell(text, stay=(), want=lambda word: True):
    return WORD.sub(lambda m: TABLE[m[0]] if m[0] in TABLE and m[0] not in stay and want(m[0]) else m[0], text)


def from_libraries(text):
    """The names that a file imports from elsewhere than the repository."""
    names = set()
    for module, list_ in re.findall(r'\buse ([\w.]+)\.\{([^}]*)\}', text):
        if not module.startswith('Rattle.') or module.startswith('Rattle.std.'):
            names |= {name.strip() for name in list_.split(',')}
    return names


def promise(text, file):
    """Gives the promise of a command the spelling of a type where the file has it from Promises.antt."""
    if file.name == 'Promises.antt' or re.search(r'use Rattle\.rules\.specs\.Promises\.\{[^}]*\bgiven\b', text):
        parts = re.split(r'((?:--|//)[^\n]*)', text)
        parts[::2] = [re.sub(rf'(?<![\w.-]){PROMISE[0]}(?![\w-])', PROMISE[1], part) for part in parts[::2]]
        return ''.join(parts)
    return text


def antt(text, file):
    stay = from_libraries(text)
    parts = re.split(r'(--[^\n]*)', text)
    parts[::2] = [respell(part, stay) for part in parts[::2]]
    parts[1::2] = [respell(part, stay, humped) for part in parts[1::2]]
    text = ''.join(parts)
    if file.name == 'Proof.antt':
        # the name by which the check finds the proof of a function
        name = file.parent.name.lstrip('+')
        text = re.sub(rf'(?<![\w-]){re.escape(name.replace("_", "-"))}-spec(?![\w-])', f'{name}_spec', text)
    return promise(text, file)


def clauses(text):
    """The places of an .rt file's clauses and `ghost use` items."""
    for m in re.finditer(r'\bghost use [^;]*;|\b(?:requires|ensures|ghost)\*?(?: \w+)*(?: :| =)? \{', text):
        end = m.end()
        if m[0].endswith('{'):
            depth = 1
            while depth:
                depth += {'{': 1, '}': -1}.get(text[end], 0)
                end += 1
        yield m.start(), end


def rt(text, file):
    out, done = [], 0
    for start, end in clauses(text):
        out += [respell(text[done:start], want=lambda word: False), respell(text[start:end])]
        done = end
    text = ''.join(out) + text[done:]
    text = re.sub(r'//[^\n]*', lambda m: respell(m[0], want=humped), text)
    return promise(text, file)


def edit(text, file):
    of, out = '', []
    for line in text.splitlines(keepends=True):
        key = re.match(r'(\w+):|  ', line)
        if key and key[1] == 'file':
            of = line.split()[-1]
        turns = key and (key[1] == 'refused' or key[1] in ('old', 'new', None) and of.endswith('.antt'))
        out.append(respell(line) if turns else line)
    return ''.join(out)


def page(text, file):
    text = respell(text, want=humped)
    return re.sub(r'`[^`\n]+`', lambda m: respell(m[0]), text)


def files(root):
    for pattern, turn in (('crates/**/*.antt', antt), ('crates/**/*.rt', rt), ('crates/*/must-fail/*.edit', edit), ('edits/*.edit', edit),
                          ('README.md', page), ('CONTRIBUTING.md', page), ('docs/**/*.md', page)):
        for file in sorted(root.glob(pattern)):
            if 'out' not in file.relative_to(root).parts and file.name != 'PORT.md':
                yield file, turn


def main():
    root = Path(sys.argv[1]) if len(sys.argv) > 1 else Path(__file__).resolve().parent.parent
    changed = 0
    for file, turn in files(root):
        text = file.read_text()
        after = turn(text, file)
        if after != text:
            file.write_text(after)
            changed += 1
    print(f'{changed} files changed')


main()
