"""The desk's copies of proved rules beside the program: labels of all rates (desk/timecode.js), all of them, and edit
lists (desk/edl.js), 10,000 that were made by chance."""

import concurrent.futures
import contextlib
import filecmp
import itertools
import json
import os
import pathlib
import re
import shutil
import subprocess

import made_lists
from desk_models import scratch_of
from stand_in import DESK

SEED, LISTS = 20260302, 10000
MOST_JOINED = 10000  # bytes of a list whose events are compared one by one
# Of each fault there are so many lists at least, or the lists are made too tame.
LEAST = {0: 3000, 21: 50, 22: 200, 23: 100, 24: 100, 25: 200, 26: 100, 27: 30, 28: 200, 30: 4}
FAULT = re.compile(r'line (\d+): (\d+) \w+(?: (\d+) \w+)?$')


def node(folder, *words):
    done = subprocess.run(['node', 'tests/desk/rules.js', *words], cwd=folder, stdout=subprocess.PIPE,
                          stderr=subprocess.PIPE, stdin=subprocess.DEVNULL, timeout=300, check=False)
    if done.returncode != 0:
        raise AssertionError(f'node: {done.stderr.decode()[-500:]}')
    return done.stdout.decode()


def first_difference(files):
    """What was asked first that is answered otherwise, with both answers."""
    with contextlib.ExitStack() as opened:
        for lines in itertools.zip_longest(*[opened.enter_context(open(file, 'rb')) for file in files]):
            asked, ours, theirs = [line.decode().rstrip('\n') if line else None for line in lines]
            if ours != theirs:
                return f'{asked!r} is {theirs!r}, in the desk {ours!r}'
    return 'none'


def labels_of(program, folder, rate):
    """How many labels and frames are answered by both in the same way, or where they first differ."""
    own = folder / rate
    own.mkdir()
    node(folder, 'labels', rate, str(own))
    with open(own / 'asked', 'rb') as asked, open(own / 'answered', 'wb') as answered:
        done = subprocess.run([program, 'tc', rate, '-'], stdin=asked, stdout=answered, stderr=subprocess.DEVNULL,
                              timeout=300, check=False)
    files = [own / name for name in ('asked', 'said', 'answered')]
    same = filecmp.cmp(*files[1:], shallow=False)
    told = files[0].read_bytes().count(b'\n') if same else first_difference(files)
    shutil.rmtree(own)
    return told if done.returncode in (0, 1) else f'tc {rate} - ended with {done.returncode}'


def labels(suite, folder, pool):
    told = dict(zip(made_lists.RATES, pool.map(lambda rate: labels_of(suite.program, folder, rate), made_lists.RATES)))
    for rate, lines in told.items():
        suite.holds(f'labels at {rate}: {lines}', isinstance(lines, int))
        suite.holds(f'{lines} labels and frames at {rate}', isinstance(lines, str) or lines > 6500000)
    count = sum(lines for lines in told.values() if isinstance(lines, int))
    print(f'desk: rules: {count:,} labels and frames', flush=True)


def numbers_of(line):
    """The numbers of a fault's line: where, which, and which of a label."""
    found = FAULT.match(line)
    return [int(number) for number in found.groups() if number] if found else line


def checked(program, folder, names, rate):
    """What `check` says of each file: its counts, or the numbers of its fault."""
    done = subprocess.run([program, 'check', rate, *names], cwd=folder, stdout=subprocess.PIPE, stderr=subprocess.PIPE,
                          stdin=subprocess.DEVNULL, timeout=300, check=False)
    said = {}
    for line in done.stdout.decode().splitlines():
        name, counts = line.split(': ', 1)
        numbers = [int(number) for number in re.findall(r'\d+', counts)]
        said[name] = {'events': numbers[0], 'picture': numbers[1], 'sound': numbers[2]}
    for line in done.stderr.decode().splitlines():
        name, fault = line.split(': ', 1)
        said[name] = numbers_of(fault)
    return said


def as_the_desk(event):
    """An event of `list --json` as the desk keeps it: a wipe with three digits, a key by its letter alone."""
    kind, duration = event.pop('kind'), event.pop('duration')
    if kind.startswith('W'):
        kind = f'W{int(kind[1:]):03}'
    return {**event, 'kind': 'K' if kind.startswith('K') else kind, 'mix': duration or 0}


def events_of(program, file, rate):
    with open(file, 'rb') as text:
        done = subprocess.run([program, 'list', rate, '--json'], stdin=text, stdout=subprocess.PIPE,
                              stderr=subprocess.PIPE, timeout=60, check=False)
    if done.returncode != 0:
        raise AssertionError(f'list {rate}: {done.stderr.decode()[-200:]}')
    return [as_the_desk(json.loads(line)) for line in done.stdout.decode().split('\n') if line]


def difference(ours, told, title):
    """How the desk reads a list otherwise than the program, in words, or nothing."""
    if ours['fault'] or not isinstance(told, dict):
        return '' if ours['fault'] == told else f'{told}, in the desk {ours["fault"] or "no fault"}'
    events, picture = len(ours['events']), ours['picture']
    own = {'events': events, 'picture': picture, 'sound': events - picture}
    if own != told:
        return f'holds {told}, in the desk {own}'
    return '' if ours['title'] == title else f'title {title!r}, in the desk {ours["title"]!r}'


def same_events(suite, rate, ours, theirs):
    """The events of all lists of a rate that have no fault, which were joined to one."""
    suite.holds(f'{len(theirs)} events at {rate}', len(theirs) > 4000)
    suite.equals(f'as many events at {rate}', len(theirs), len(ours))
    unlike = [(one, other) for one, other in zip(theirs, ours) if one != other]
    suite.holds(f'events at {rate}: {unlike[:1]}', not unlike)


def lists(suite, folder, pool):
    made = {f'{number:05}-{rate}.edl': (rate, text)
            for number, (rate, text) in enumerate(made_lists.made_lists(SEED, LISTS))}
    for name, (_, text) in made.items():
        (folder / name).write_bytes(text)
    told = {}
    for rate in made_lists.RATES:
        told.update(checked(suite.program, folder, [name for name in made if made[name][0] == rate], rate))
    suite.equals('each list is checked', sorted(made), sorted(told))
    joined = {rate: folder / f'joined-{rate}.edl' for rate in made_lists.RATES}
    for rate, file in joined.items():
        file.write_bytes(b'\n'.join(text for name, (its, text) in made.items()
                                    if its == rate and isinstance(told[name], dict) and len(text) < MOST_JOINED))
    ours = {each['name']: each for each in map(json.loads, node(folder, 'lists', '.').rstrip('\n').split('\n'))}
    theirs = pool.map(lambda rate: events_of(suite.program, joined[rate], rate), joined)
    for rate, events in zip(joined, theirs):
        same_events(suite, rate, ours[joined[rate].name]['events'], events)
    for name, (_, text) in made.items():
        title = made_lists.title_of(text) if isinstance(told[name], dict) else ''
        words = difference(ours[name], told[name], title)
        suite.holds(f'list {name}: {words}: {text[:300]!r}', not words)
    kinds = [0 if isinstance(each, dict) else each[1] for each in told.values()]
    for code, least in LEAST.items():
        suite.holds(f'{kinds.count(code)} lists with fault {code}, {least} wanted', kinds.count(code) >= least)


def rules(suite):
    folder = pathlib.Path(scratch_of(DESK))
    try:
        with concurrent.futures.ThreadPoolExecutor(os.cpu_count()) as pool:
            labels(suite, folder, pool)
            lists(suite, folder, pool)
    finally:
        shutil.rmtree(folder)
