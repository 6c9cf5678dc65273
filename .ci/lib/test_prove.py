#!/usr/bin/env python3
"""Whether .ci/prove says of a crate of another repository what holds, with a library of one function and a program over it.

Its last line is 'prove: N passed, M failed'. It takes a minute or two.
"""
import importlib.machinery, importlib.util, os, shutil, signal, subprocess, sys, tempfile, time

HERE = os.path.dirname(os.path.dirname(os.path.abspath(__file__)))
TEXTS = {
    'crates.txt': 'small:\nplayout_cli: small\n',
    'HANDLES': 'Handles allowed: none.\n',
    'crates/small/specs/Lib.antt': '',
    'crates/small/src/lib.rt': """//! The greater of two numbers.
#![tactic(auto)]

ghost use Rattle.std.specs.Prelude.{◌≡◌, if◌then◌else◌, nat_le};

/// The greater of two numbers.
pub fn greater(a: u8, b: u8) -> u8
    ensures { result ≡ (if nat_le a b then b else a) }
{
    if a <= b { b } else { a }
}
""",
    'crates/playout_cli/src/main.rt': """//! A program.
#![tactic(auto)]

use small::greater;

fn main() {
    let _greater = greater(1, 2);
}
""",
}
LIBRARY, OUT = 'crates/small/src/lib.rt', 'crates/small/out'
passed = failed = 0


def check(what, holds):
    global passed, failed
    passed, failed = passed + holds, failed + (not holds)
    if not holds:
        print(f'prove: failed: {what}', flush=True)


class Far:
    """A crate from which it is so far to the end."""

    def __init__(self, left):
        self.left = left


def check_shares():
    """One that begins has several processes, also where one from which it is farther runs."""
    sys.dont_write_bytecode = True
    loader = importlib.machinery.SourceFileLoader('prove', f'{HERE}/prove')
    prove = importlib.util.module_from_spec(importlib.util.spec_from_loader('prove', loader))
    loader.exec_module(prove)
    runs, begins, near = Far(51), Far(48), Far(16)
    check('one that begins beside two', prove.processes_of([begins, near], [runs, begins, near], [runs, begins, near], 4)
          == {begins: 2})
    check('one that begins beside one', prove.processes_of([runs, near], [runs, near], [runs, near], 4) == {runs: 3})
    check('one beside many', prove.processes_of([runs], [runs, *[near] * 6], [runs, *[near] * 6], 4) == {runs: 2})
    check('one of two processors', prove.processes_of([runs, near], [runs, near], [runs, near], 2) == {runs: 1})
    check('one alone', prove.processes_of([runs], [runs], [runs], 4) == {runs: 4})
    check('two that begin', prove.processes_of([runs, begins], [runs, begins], [runs, begins], 4) == {runs: 2, begins: 2})
    check('none that is not urgent', prove.processes_of([near], [runs, near], [runs, near], 4) == {})
    programs = ('playout_memory', 'playout_cli')
    check('each crate of the programs was measured', {*programs}.union(*map(prove.below, programs)) == set(prove.SECONDS))
    prove.SECONDS = {}
    check('one that was not counts by its lines', prove.Crate('timecode', {}).work == prove.seconds_by_lines('timecode') > 10)


def main():
    check_shares()
    with tempfile.TemporaryDirectory() as top:
        def prove(*words):
            ran = subprocess.run([f'{top}/.ci/prove', *words], stdin=subprocess.DEVNULL, stdout=subprocess.DEVNULL,
                                 stderr=subprocess.PIPE, text=True, check=False)
            return ran.returncode, ran.stderr

        def change(old, new):
            with open(f'{top}/{LIBRARY}') as it:
                text = it.read()
            with open(f'{top}/{LIBRARY}', 'w') as it:
                it.write(text.replace(old, new))

        def has_kept():
            return os.path.isdir(f'{top}/{OUT}/incremental')

        shutil.copytree(HERE, f'{top}/.ci')
        for path, text in TEXTS.items():
            os.makedirs(os.path.dirname(f'{top}/{path}'), exist_ok=True)
            with open(f'{top}/{path}', 'w') as it:
                it.write(text)
        check('nothing is proved yet', prove('--is-proved')[0] == 1)
        check('all is proved', prove()[0] == 0 and prove('--is-proved')[0] == 0)
        check('and the program is there', subprocess.run([f'{top}/crates/playout_cli/out/playout_cli'], check=False).returncode == 0)
        check('nothing of a function is kept', not has_kept())
        check('it is kept where that is asked', prove('--keep', 'small')[0] == 0 and has_kept())
        check('nothing is proved twice', prove() == (0, ''))
        change('{ b } else { a }', '{ a } else { b }')
        check('a changed text is not proved', prove('--is-proved')[0] == 1)
        status, said = prove()
        check('a wrong one is refused', status == 1 and 'small is not proved' in said and prove('--is-proved')[0] == 1)
        change('{ a } else { b }', '{ b } else { a }')
        change('The greater of two', 'The greatest of two')
        status, said = prove()
        check('what is mended is proved again, and what stands on it', status == 0 and 'small,' in said and 'playout_cli,' in said)
        # As `rt ci` leaves it.
        for note in ('small/out/proved', 'small/out/rlib/stamp', 'playout_cli/out/proved'):
            os.remove(f'{top}/crates/{note}')
        check('what is only there is not proved', prove('--is-proved')[0] == 1)
        check('what rt ci left is taken', prove('--take')[0] == 0 and prove() == (0, '') and prove('--optimize')[0] == 0)
        change('The greatest of two', 'The greater of two')
        check('but not for another text', prove('--is-proved')[0] == 1)
        check('what comes first is waited for alone', prove('--first', 'small')[0] == 0 and prove('--is-proved')[0] == 1
              and prove('--is-running')[0] == 0)
        check('and all goes on behind it', prove()[0] == 0 and prove('--is-proved')[0] == 0)
        change('The greater of two', 'The greatest of two')
        with subprocess.Popen([f'{top}/.ci/prove', '--first', 'small'], stderr=subprocess.DEVNULL) as first:
            time.sleep(1)
            first.send_signal(signal.SIGINT)
        check('interrupted, nothing goes on', first.returncode == 130 and prove('--is-running')[0] == 1
              and prove('--is-proved', 'small')[0] == 1)
    print(f'prove: {passed} passed, {failed} failed')
    return 1 if failed else 0


if __name__ == '__main__':
    sys.exit(main())
