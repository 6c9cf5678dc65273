#!/usr/bin/env python3
"""Breaks the lines of definitions and proofs (.antt) that are wider than 120 characters, at their outermost blanks, and means
the same: a line that is further in than the one at which a declaration begins goes on with it.

    wrap_antt.py [PATH..]       breaks them in these files and folders; without one in all of crates/*/specs and proofs
    wrap_antt.py --list         names each line that is too wide and can be broken, and each file of proofs/ without a first
                                line that says what it is about; status 1 where there is one
    wrap_antt.py --self-test

A `use` line that is too wide becomes several of one module, and a comment is filled anew. What has no blank where it could
be broken stays, as does a line with a `do`, whose statements stand in one column. What was broken is then laid out as
`rt fmt` does, where `rt` is there.
"""
import glob, os, re, shutil, subprocess, sys

TOP = os.path.dirname(os.path.dirname(os.path.dirname(os.path.abspath(__file__))))
WIDTH, FURTHER, ROUNDS = 120, 4, 4
# A quoted text, a name between « and », a comment, a bracket, or any other stretch without a blank.
TOKEN = re.compile(r'"(?:\\.|[^"\\])*"|«[^»]*»|--.*|\{-.*?-\}|[()\[\]{}]|[^\s()\[\]{}"«]+')
USE = re.compile(r'^((?:pub )?use [^{]*\.)\{(.*)\}$')
# A line breaks best behind the `=` of its clause, then behind an `in`, the `=` of a `let`, and before these, in this order.
BEFORE = ['→', '⊎', '×', '≡', '∙', '||', '&&', '++', '∷', '≤', '<', 'else', 'then', '|']
# Behind these no line is broken.
BEGINS = {*BEFORE, 'λ', '←', 'let', 'if', 'elim', 'at', 'as', ':', '\\', 'pub', 'abbrev', 'unfoldable'}


def tokens(text):
    """The tokens of a text in their order, without its comments, and each name of a `use` line for itself."""
    for line in text.splitlines():
        used = USE.match(line)
        if used:
            yield from (f'{used[1]}{name}' for name in used[2].split(', '))
        else:
            yield from (it for it in TOKEN.findall(line) if not it.startswith(('--', '{-')))


def words(text):
    """The words of the comments of a text."""
    return [word for line in text.splitlines() if line.lstrip().startswith('--') for word in line.split() if word != '--']


def blanks(line):
    """Where a line may be broken: how deep a blank is in brackets, how weak the break is, and its place."""
    depth, last, end, is_let = 0, '', 0, False
    for found in TOKEN.finditer(line):
        it = found[0]
        if it.startswith('--'):
            return
        depth -= it in (')', ']', '}')
        if end and found.start() > end:
            weak = {'=': 2 if is_let else 0, 'in': 1}.get(last, 3 + len(BEFORE))
            weak = min(weak, 3 + BEFORE.index(it)) if it in BEFORE else weak
            # A bracket that closes, and a sign, stay with what stands before them, and so does a bracket at the line's end;
            # what a sign or a word begins stays with these.
            stays = it in (')', ']', '}', '=', ':', ',', ';') or it in ('(', '[', '{') and found.end() == len(line)
            if not stays and last not in BEGINS:
                yield depth, weak, end
        depth += it in ('(', '[', '{')
        is_let = is_let or it == 'let'
        last, end = it, found.end()


def broken(line):
    """The lines into which one is broken."""
    margin = len(line) - len(line.lstrip())
    first = line.split()[0]
    # A line that begins with a sign goes on with the one before it: so does what begins with the same.
    column = margin if first in BEFORE else margin + FURTHER
    lines = []
    while len(line) > WIDTH:
        places = [it for it in blanks(line) if column < it[2] <= WIDTH]
        if not places:
            places = sorted(blanks(line), key=lambda it: it[2])[:1]
            if not places or places[0][2] <= column:
                break
        depth, weak, _place = min(places, key=lambda it: (it[0], it[1]))
        place = max(it[2] for it in places if it[:2] == (depth, weak))
        lines.append(line[:place])
        line = ' ' * column + line[place:].lstrip()
    return lines + [line]


def parted(line):
    """A `use` line as several, each as wide as may be."""
    begin, names = USE.match(line).groups()
    lines = []
    for name in names.split(', '):
        if lines and len(f'{begin}{{{", ".join([*lines[-1], name])}}}') <= WIDTH:
            lines[-1].append(name)
        else:
            lines.append([name])
    return [f'{begin}{{{", ".join(it)}}}' for it in lines]


def filled(lines):
    """The lines of a comment, one of which is too wide, filled anew."""
    begin = re.match(r'\s*-- ', lines[0])[0]
    filled_lines = [begin.rstrip()]
    for word in ' '.join(line.strip()[2:] for line in lines).split():
        if len(filled_lines[-1]) + 1 + len(word) > WIDTH:
            filled_lines.append(begin.rstrip())
        filled_lines[-1] += f' {word}'
    return filled_lines


def wrapped(text):
    """The text without lines that are too wide."""
    lines, out, at = text.splitlines(), [], 0
    while at < len(lines):
        line = lines[at]
        at += 1
        if len(line) <= WIDTH:
            out.append(line)
        elif re.match(r'\s*-- ', line):
            margin = line[:line.index('--') + 3]
            end = at
            while end < len(lines) and lines[end].startswith(margin) and not lines[end].startswith(f'{margin} '):
                end += 1
            out += filled(lines[at - 1:end])
            at = end
        elif USE.match(line):
            out += parted(line)
        else:
            out += [line] if re.search(r'(^|[\s(])do( |$)', line) else broken(line)
    return ''.join(f'{line}\n' for line in out)


def files(paths):
    """The files of these files and folders; without one those of all crates."""
    for path in paths or sorted(glob.glob(f'{TOP}/crates/*/specs') + glob.glob(f'{TOP}/crates/*/proofs')):
        yield from [path] if os.path.isfile(path) else sorted(glob.glob(f'{path}/**/*.antt', recursive=True))


def contents(path):
    with open(path, encoding='utf-8') as file:
        return file.read()


def lay_out(paths):
    """Lays files out as `rt fmt` does."""
    rt = shutil.which('rt')
    if rt and paths:
        subprocess.run([f'{os.path.dirname(os.path.realpath(rt))}/rattle', 'fmt', '--write', *paths], check=True,
                       stdout=subprocess.DEVNULL)


def wrap(paths):
    """Breaks the lines of these files, and those that are too wide once they are laid out."""
    paths = list(files(paths))
    before = {path: contents(path) for path in paths}
    for _round in range(ROUNDS):
        now = []
        for path in paths:
            text = contents(path)
            new = wrapped(text)
            if list(tokens(new)) != list(tokens(text)) or words(new) != words(text):
                print(f'{path}: it would mean something else', file=sys.stderr)
                return 1
            if new != text:
                now.append(path)
                with open(path, 'w', encoding='utf-8') as out:
                    out.write(new)
        lay_out(now)
        if not now:
            break
    after = {path: contents(path) for path in paths}
    left = sum(len(line) > WIDTH for text in after.values() for line in text.splitlines())
    changed = sum(after[path] != before[path] for path in paths)
    print(f'wrap_antt: {changed} files changed, {left} lines are wider than {WIDTH} still')
    return 0


def show():
    """Names what is too wide, and the files without a first line."""
    wide, bare = [], []
    for path in files([]):
        text, name = contents(path), os.path.relpath(path, TOP)
        wide += [f'{name}:{number}: {len(line)} characters' for number, line in enumerate(text.splitlines(), 1)
                 if len(line) > WIDTH and wrapped(f'{line}\n') != f'{line}\n']
        if '/proofs/' in name and os.path.basename(name) != 'Lib.antt' and not text.startswith('-- '):
            bare.append(f'{name}: no first line')
    print(*wide, *bare, sep='\n', end='\n' if wide or bare else '')
    print(f'wrap_antt: {len(wide)} lines are wider than {WIDTH}, {len(bare)} files of proofs have no first line')
    return 1 if wide or bare else 0


def self_test():
    """What is broken means the same, and once it is broken nothing more is done."""
    long = 'a_long_name'
    tries = [
        (f'f : {" → ".join([long] * 12)}\n', 2),
        (f'f a b = {long} ({long} {" ".join([long] * 5)}) ({" ".join([long] * 5)})\n', 3),
        (f'    by h = let x : {long} = {" ".join([long] * 5)} in let y = {" ".join([long] * 5)} in x\n', 3),
        (f'f = g h i "{" ".join([long] * 9)}" x y\n', 2),
        (f'use A.B.{{{", ".join([long] * 14)}}}\n', 2),
        (f'-- {" ".join([long] * 12)}\n-- and more\n', 2),
        (f'f = do {" ".join([long] * 12)}\n', 1),
        (f'        → {" ".join([long] * 6)} → {" ".join([long] * 6)}\n', 2),
        (f'f = {long} ({" ".join([long] * 14)})\n', 3),
    ]
    for text, count in tries:
        once = wrapped(text)
        lines = once.splitlines()
        good = wrapped(once) == once and list(tokens(once)) == list(tokens(text)) and words(once) == words(text)
        good = good and len(lines) == count and (' do ' in text or all(len(it) <= WIDTH for it in lines))
        if not good or any(it.startswith(' ') is False for it in lines[1:] if not it.startswith(('use', '--'))):
            print(f'wrap_antt: {text!r} became {once!r}', file=sys.stderr)
            return 1
    if list(tokens('f = g x')) == list(tokens('f = g y')) or words('-- a b') == words('-- a'):
        print('wrap_antt: what means something else is taken for the same', file=sys.stderr)
        return 1
    for path in files([]):
        text = contents(path)
        once = wrapped(text)
        if wrapped(once) != once or list(tokens(once)) != list(tokens(text)) or words(once) != words(text):
            print(f'wrap_antt: {path} means something else, or is broken twice', file=sys.stderr)
            return 1
    print(f'wrap_antt: {len(tries)} texts, and all of the crates, mean what they did')
    return 0


if sys.argv[1:] == ['--self-test']:
    sys.exit(self_test())
sys.exit(show() if sys.argv[1:] == ['--list'] else wrap(sys.argv[1:]))
