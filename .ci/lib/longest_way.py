#!/usr/bin/env python3
"""How long a fresh clone waits, reckoned from what each crate's proof took.

    .ci/lib/longest_way.py [--processors N] [--drop CRATE:LIBRARY]..  [--seconds CRATE=S].. [PROGRAM..]

Reads crates.txt, and what `.ci/prove` wrote of each crate (crates/playout_cli/out/times, the last line of each). Prints, for
each program (playout_memory and playout_cli), the longest way below it with its seconds, and when it would be proved on N
processors (4) where each crate has one process and the one with the longest way above it goes first. With `--drop` as if the
crate didn't use that library, and with `--seconds` as if its proof took so long: a cut is reckoned before it is tried.
"""
import argparse, os, re, sys

TOP = os.path.dirname(os.path.dirname(os.path.dirname(os.path.abspath(__file__))))


def uses_of(text):
    """The repository's libraries that each crate of crates.txt names."""
    rows = [line.partition('#')[0].partition(':')[::2] for line in text.splitlines()]
    names = {left.split()[0]: right.split() for left, right in rows if left.split()}
    return {name: [it for it in words if it in names] for name, words in names.items()}


def seconds_of(text):
    """What each crate took last: seconds of processor."""
    return {it[1]: int(it[2]) for it in re.finditer(r'^(\w+) \d+ s, (\d+) s of processor', text, re.M)}


def below(uses, name):
    return {name}.union(*(below(uses, it) for it in uses[name]))


def longest_way(uses, seconds, name):
    """The crates of the longest way to this one, and its seconds."""
    ways = [longest_way(uses, seconds, it) for it in uses[name]]
    way, took = max(ways, key=lambda it: it[1], default=([], 0))
    return [*way, name], took + seconds[name]


def proved_at(uses, seconds, names, processors):
    """When each of these crates is proved: those with the longest way to the end begin first."""
    above = {it: [other for other in names if it in uses[other]] for it in names}
    rest = {}
    for name in sorted(names, key=lambda it: len(below(uses, it)), reverse=True):
        rest[name] = seconds[name] + max((rest[it] for it in above[name]), default=0)
    waiting, running, done, now = set(names), {}, {}, 0
    while waiting or running:
        ready = sorted((it for it in waiting if all(other in done for other in uses[it])), key=lambda it: (-rest[it], it))
        for name in ready[:processors - len(running)]:
            waiting.remove(name)
            running[name] = now + seconds[name]
        name = min(running, key=running.get)
        now = done[name] = running.pop(name)
    return done


def main(words):
    parser = argparse.ArgumentParser(description=__doc__, formatter_class=argparse.RawDescriptionHelpFormatter)
    parser.add_argument('--processors', type=int, default=4)
    parser.add_argument('--drop', action='append', default=[])
    parser.add_argument('--seconds', action='append', default=[])
    parser.add_argument('programs', nargs='*', default=['playout_memory', 'playout_cli'])
    asked = parser.parse_args(words)
    with open(f'{TOP}/crates.txt') as crates, open(f'{TOP}/crates/playout_cli/out/times') as times:
        uses, seconds = uses_of(crates.read()), seconds_of(times.read())
    for name, library in (it.split(':') for it in asked.drop):
        uses[name].remove(library)
    seconds |= {name: int(took) for name, took in (it.split('=') for it in asked.seconds)}
    for program in asked.programs:
        names = below(uses, program)
        unknown = sorted(it for it in names if it not in seconds)
        if unknown:
            sys.exit(f'longest_way: nothing is known of what {" ".join(unknown)} took')
        way, took = longest_way(uses, seconds, program)
        print(f'{program}: {took} s by {", ".join(f"{it} {seconds[it]}" for it in way)}')
        print(f'{program}: on {asked.processors} processors {proved_at(uses, seconds, names, asked.processors)[program]} s, '
              f'{sum(seconds[it] for it in names)} s of processor')
    return 0


if __name__ == '__main__':
    sys.exit(main(sys.argv[1:]))
