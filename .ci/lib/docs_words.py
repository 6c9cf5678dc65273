#!/usr/bin/env python3
"""The documents are short: all of them have at most 26,000 words, as `wc -w` counts them, and no sentence has over 25. Each
link leads to a file and a heading that are there. Prints how many words there are.

    .ci/lib/docs_words.py [--self-test]

A sentence is one of a paragraph, an item of a list, or a cell of a table, where `;` ends one, too. What stands between
backticks is one word of it. CHANGELOG.md is the past's, and isn't looked at.
"""
import glob, os, re, sys

TOP = os.path.dirname(os.path.dirname(os.path.dirname(os.path.abspath(__file__))))
MOST_WORDS, LONGEST = 26_000, 25
PLACES = ['README.md', 'CONTRIBUTING.md', 'SECURITY.md', 'docs/*.md', 'deploy/*.md', 'desk/*.md', 'libraries/*.md']
# What begins a paragraph of its own: an item of a list, a row of a table.
BEGINS = re.compile(r'^(?:\s*(?:[-*]|\d+\.) |\|)')


def contents(path):
    """The text of a file; of what is there and isn't one, none; None where nothing is there."""
    if not os.path.isfile(path) or not path.endswith('.md'):
        return '' if os.path.exists(path) else None
    with open(path, encoding='utf-8') as file:
        return file.read()


def read(top):
    """The documents' texts, by their names."""
    paths = [path for place in PLACES for path in sorted(glob.glob(f'{top}/{place}'))]
    return {os.path.relpath(path, top): contents(path) for path in paths}


def paragraphs(text):
    """The paragraphs of a document without its code: each with the number of its line."""
    at, lines, is_code = 0, [], False
    for number, line in enumerate(text.splitlines(), 1):
        if line.startswith('```'):
            is_code = not is_code
        ends = is_code or not line.strip() or line.startswith(('```', '#', '    '))
        if lines and (ends or BEGINS.match(line)):
            yield at, ' '.join(lines)
            lines = []
        if not ends:
            at = at if lines else number
            lines.append(line.strip())
    if lines:
        yield at, ' '.join(lines)


def sentences(paragraph):
    """The sentences of a paragraph, each as its words."""
    text = re.sub(r'`[^`]*`', 'code', paragraph)
    text = re.sub(r'!?\[([^]]*)\]\([^)]*\)', r'\1', text)
    parts = re.split(r'(?:\s|^)\|(?:\s|$)|;\s', text) if text.startswith('|') else [text]
    for part in parts:
        for sentence in re.split(r'(?<=[.?!])[*)"]*\s+(?=[*("\[]*[A-Z0-9a-z])', part):
            yield [word for word in sentence.split() if re.search(r'\w', word)]


def headings(text):
    """What a link may name behind `#`."""
    for line in re.findall(r'^#+ (.*)$', re.sub(r'^```.*?^```', '', text, flags=re.M | re.S), re.M):
        yield re.sub(r'[^\w -]', '', line.lower()).replace(' ', '-')


def broken(name, text, texts, top):
    """The links of a document that lead nowhere."""
    for link in re.findall(r'\]\(([^)\s]*)\)', text):
        path, _mark, heading = link.partition('#')
        if '://' in link:
            continue
        to = os.path.normpath(os.path.join(os.path.dirname(name), path)) if path else name
        text = texts.get(to) or contents(f'{top}/{to}')
        if text is None or heading and heading not in headings(text):
            yield f'{name}: nothing is at {link}'


def wrong(texts, top):
    """What is wrong with these documents, a line each."""
    count = sum(len(text.split()) for text in texts.values())
    if count > MOST_WORDS:
        yield f'{count} words, of at most {MOST_WORDS}'
    for name, text in texts.items():
        for line, paragraph in paragraphs(text):
            for words in sentences(paragraph):
                if len(words) > LONGEST:
                    yield f'{name}:{line}: {len(words)} words: {" ".join(words)}'
        yield from broken(name, text, texts, top)


def check():
    """Says what is wrong, or how many words there are."""
    texts = read(TOP)
    faults = list(wrong(texts, TOP))
    print(*faults, sep='\n', end='\n' if faults else '', file=sys.stderr)
    if not faults:
        print(f'docs: {sum(len(text.split()) for text in texts.values())} words in {len(texts)} documents')
    return 1 if faults else 0


def self_test():
    """Faults are told, and what is none isn't."""
    of_25, more = 'One ' + 'word ' * 23 + 'more.', 'One ' + 'word ' * 24 + 'more.'
    tries = [
        (f'{of_25} {of_25}\n', 0), (f'{more}\n', 1), (f'{of_25}\n{more}\n', 1), (f'- {of_25}\n- {more}\n', 1),
        (f'| {of_25} | {of_25} |\n', 0), (f'| {of_25} | {more} |\n', 1), (f'| {of_25[:-1]}; {of_25} |\n', 0),
        (f'{of_25[:-1]}; {of_25}\n', 1), (f'```\n{more}\n```\n', 0), (f'`{more}` {of_25[4:]}\n', 0),
        (f'**{of_25}** {of_25}\n', 0),
        ('## A heading: of it\n[a](#a-heading-of-it)\n', 0), ('[a](#nothing)\n', 1), ('[a](README.md)\n', 0), ('[a](NOTHING.md)\n', 1),
        ('word ' * MOST_WORDS, 1), ('word ' * (MOST_WORDS + 1), 2),
    ]
    for text, faults in tries:
        told = list(wrong({'README.md': text}, TOP))
        if len(told) != faults:
            print(f'docs: {faults} faults were to be told of {text[:80]!r}: {told}', file=sys.stderr)
            return 1
    print(f'docs: {len(tries)} texts are told apart')
    return 0


sys.exit(self_test() if sys.argv[1:] == ['--self-test'] else check())
