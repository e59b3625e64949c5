#!/usr/bin/env python3
"""Tries whether definitions are pinned: definitions.py COPY COUNT SEED CHECKS FILE..

COPY is a copy of this repository, made with `cp -a` so that what was proved is kept, and used by nobody else. FILE is a file of
definitions, such as sp_model/specs/Good. CHECKS says what is to refuse a change, with commas between: a crate, or `crate@laws`
for its laws alone. Example:

    cp -a . /tmp/copy
    tools/definitions.py /tmp/copy 40 1 sp_examples sp_model/specs/Good sp_model/specs/State

It changes one place of one file at a time, checks, and puts the file back, until COUNT changes were tried. A change that no
check refuses is printed as SURVIVED: a law is missing there, or the change means the same. Changes whose file doesn't typecheck
aren't counted. A refusal says which law isn't proved; that can also be for the form of its proof."""
import os
import random
import re
import subprocess
import sys

# Texts that are exchanged, with the name that the new text needs, if it needs one.
EXCHANGES = [
    (' ≤ ', ' < ', '◌<◌'), (' < ', ' ≤ ', '◌≤◌'), (' + ', ' - ', '◌-◌'), (' - ', ' + ', '◌+◌'), (' * ', ' + ', '◌+◌'),
    (' / ', ' % ', '◌%◌'), (' % ', ' / ', '◌/◌'), (' ≡ ', ' ≢ ', '◌≢◌'), (' ≢ ', ' ≡ ', '◌≡◌'), (' × ', ' ⊎ ', '◌⊎◌'),
    (' ⊎ ', ' × ', None), (' && ', ' || ', '◌||◌'), (' || ', ' && ', '◌&&◌'), ('true', 'false', 'false'),
    ('false', 'true', 'true'), ('¬ ', '', None), ('not ', '', None), (' ≤ℤ ', ' <ℤ ', '◌<ℤ◌'), (' <ℤ ', ' ≤ℤ ', '◌≤ℤ◌'),
    (' +ℤ ', ' -ℤ ', '◌-ℤ◌'), (' -ℤ ', ' +ℤ ', '◌+ℤ◌'), ('nat_le', 'nat_lt', 'nat_lt'), ('nat_lt', 'nat_le', 'nat_le'),
    ('IsTrue', 'IsFalse', 'IsFalse'), (' entry now', ' now entry', None), (' s t', ' t s', None), (' x y', ' y x', None),
]
# Fields that are read in place of one another.
FIELDS = [
    'pc sp', 'first last', 'pre post', 'ins outs', 'reads changes', 'inputs outputs', 'locs areas', 'address len', 'start end',
    '0 1', 'b c', 'd e', 'h l', 's z', 'ac cy', 'source scripts', 'above below', 'old new',
]
CONDITION = r'≡|≤|<|→|≢|Is|Are|Has|All|¬|×|Contains|Holds|Keeps'


def exchanges(line):
    """Lines with one text exchanged, each with the name that it needs."""
    for old, new, needs in EXCHANGES:
        for m in re.finditer(re.escape(old), line):
            yield line[:m.start()] + new + line[m.end():], needs
    for pair in FIELDS:
        for old, new in (pair.split(), pair.split()[::-1]):
            for m in re.finditer(rf'\.{old}(?!\w)', line):
                yield f'{line[:m.start()]}.{new}{line[m.end():]}', None


def numerals(line):
    """Lines with one number one higher or one lower."""
    for m in re.finditer(r'(?<![\w.])(0x[0-9A-F]+|\d+)(?![\w.])', line):
        n = int(m[0], 0)
        for other in {n + 1, max(n - 1, 0)} - {n}:
            text = f'0x{other:X}' if m[0].startswith('0x') else str(other)
            yield line[:m.start()] + text + line[m.end():], None


def variants(line, text, chance):
    """Lines with a variant exchanged for another one that the file names."""
    for m in re.finditer(r'\b(\w+\.)([A-Z]\w*)\b', line):
        others = sorted(set(re.findall(re.escape(m[1]) + r'([A-Z]\w*)\b', text)) - {m[2]})
        if others and m.start() > line.find('='):
            yield line[:m.start(2)] + chance.choice(others) + line[m.end(2):], None


def wholes(line, following):
    """The line without a conjunct, without its condition, or with the right side of the next one."""
    field = re.match(r'^  pub (\w+) : (.*)$', line)
    if field and re.search(CONDITION, field[2]):
        yield f'  pub {field[1]} : ⊤', '⊤'
    conjunct = re.match(r'^(.*[=×→] )([^=×→⊎]+) × (.*)$', line)
    if conjunct:
        yield conjunct[1] + conjunct[3], None
    one, two = (re.match(r'^(\w+) (.*?) = (.*)$', it) for it in (line, following))
    if one and two and one[1] == two[1] and one[3] != two[3]:
        yield f'{one[1]} {one[2]} = {two[3]}', None


def is_definition(line):
    """Whether the line says something: it is no import, comment, signature or heading of a record."""
    if not line.strip() or line.strip().startswith('--') or line.startswith(('use ', 'pub mod', 'module', 'unfolding')):
        return False
    return not re.match(r'^((abbrev|unfoldable) )?pub [^=]*$', line)


def changes(copy, files, chance):
    """Each change: its file, the number of its line, the new line, and the name that it needs."""
    for file in files:
        with open(f'{copy}/crates/{file}.antt', encoding='utf-8') as it:
            text = it.read()
        lines = text.split('\n')
        for i, line in enumerate(lines[:-1]):
            if not is_definition(line):
                continue
            for new, needs in [*exchanges(line), *numerals(line), *variants(line, text, chance), *wholes(line, lines[i + 1])]:
                yield file, i, new, needs


def one_a_line(all_changes, chance):
    """The changes in a random order, one of each line before a second of any."""
    chance.shuffle(all_changes)
    seen, first, rest = set(), [], []
    for change in all_changes:
        (rest if change[:2] in seen else first).append(change)
        seen.add(change[:2])
    return first + rest


def imported(text, name):
    """The text with this name imported."""
    if name is None or re.search(r'^use .*[{ ,]' + re.escape(name) + r'[,}]', text, re.M):
        return text
    return re.sub(r'^(use Rattle\.std\.specs\.Prelude\.\{.*)\}$', lambda m: f'{m[1]}, {name}}}', text, count=1, flags=re.M)


def refusal(copy, checks):
    """What the first check that fails prints, or nothing."""
    for check in checks:
        crate, _, word = check.partition('@')
        words = ['rt', 'check', '--jobs', '1', *(['--only', word] if word else [])]
        ran = subprocess.run(words, cwd=f'{copy}/crates/{crate}', stdout=subprocess.PIPE, stderr=subprocess.STDOUT, text=True)
        if ran.returncode and not re.search(r'^(logic=not-proved|only=)', ran.stdout, re.M):
            sys.exit(f'{check}: no verdict:\n{ran.stdout[-2000:]}')
        if ran.returncode:
            return ran.stdout
    return None


def is_mistyped(printed):
    """Whether the first error stands in a file of definitions."""
    first = re.search(r'^\S*?(\w+)/[\w/]+\.antt:\d+:\d+: error', printed, re.M)
    return bool(first) and 'specs/' in first[0]


def tried(copy, checks, file, i, new, needs):
    """What refuses a change: the file is put back whatever happens."""
    path = f'{copy}/crates/{file}.antt'
    with open(path, encoding='utf-8') as it:
        text = it.read()
    lines = text.split('\n')
    lines[i] = new
    try:
        with open(path, 'w', encoding='utf-8') as it:
            it.write(imported('\n'.join(lines), needs))
        return refusal(copy, checks)
    finally:
        with open(path, 'w', encoding='utf-8') as it:
            it.write(text)


def main():
    copy, count, seed, checks, files = os.path.abspath(sys.argv[1]), int(sys.argv[2]), int(sys.argv[3]), sys.argv[4].split(','), sys.argv[5:]
    chance = random.Random(seed)
    done = survived = 0
    for file, i, new, needs in one_a_line(list(changes(copy, files, chance)), chance):
        if done == count:
            break
        printed = tried(copy, checks, file, i, new, needs)
        if printed and is_mistyped(printed):
            continue
        done += 1
        survived += printed is None
        laws = re.findall(r'^fn \S+::(\w+): (?:not proved|no proof)', printed or '', re.M)
        print(f'{"SURVIVED" if printed is None else "refused by " + ", ".join(laws[:3])} {file}:{i + 1}: {new.strip()}', flush=True)
    print(f'{done} changes were tried: {done - survived} were refused, {survived} survived.')
    sys.exit(1 if survived or not done else 0)


if __name__ == '__main__':
    main()
