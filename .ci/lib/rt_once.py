"""The toolchain's `rt` with the words that are given, where it looks at the texts of each crate once.

    rt_once.py [--keep] WORD..
    rt_once.py --take           notes of each library that `rt ci` left here of which texts it is: else it is built anew

To know whether a library below is still that of its texts, `rt` looks at all crates below that one anew, by each way that
leads to them through crates.txt. The program's last crate has 25,000 ways, and `rt` takes minutes for them. In a room
(.ci/prove) no text changes meanwhile, so what was found of a crate is remembered.

A library is built with its statements, as the gate builds it: what lies above reads a third as much, and several processes
prove it in half the time. But what was proved of its functions isn't kept, so each change proves all of them again. With
--keep, or where it is kept already, it is, and the library holds its proofs. An `rt` of another make is run as it is.
"""

import importlib.machinery
import importlib.util
import os
import shutil
import sys


def load_rt():
    """The toolchain's `rt` as a module, which looks at the texts of each crate once."""
    path = os.path.realpath(shutil.which('rt') or sys.exit('there is no rt here, the command of the toolchain Rattle'))
    loader = importlib.machinery.SourceFileLoader('rt', path)
    rt = importlib.util.module_from_spec(importlib.util.spec_from_loader('rt', loader))
    loader.exec_module(rt)
    look, found = rt.rtlib.Crate.stamp, {}

    def look_once(crate):
        if crate.folder not in found:
            found[crate.folder] = look(crate)
        return found[crate.folder]

    rt.rtlib.Crate.stamp = look_once
    return rt


def note_texts(crate, stamp):
    with open(f'{os.path.dirname(crate.rlib)}/stamp', 'w', encoding='utf-8') as it:
        it.write(stamp)


def with_statements(rt):
    """The same `rt`, which builds a library with its statements, if nothing is kept of what was proved of it."""
    build_with_proofs, command = rt.rtlib.Crate.build_rlib, rt.rtlib.RATTLE

    def build(crate, flags, anew):
        if crate.is_built():
            return 0
        if crate.has_kept():
            return build_with_proofs(crate, flags, anew)
        stamp, out = crate.stamp(), os.path.dirname(crate.rlib)
        shutil.rmtree(out, ignore_errors=True)
        os.makedirs(out)
        status = crate.call(command, 'build', *crate.words(flags, keeps=False), '--statements', '-o', crate.rlib)
        if status == 0:
            note_texts(crate, stamp)
        return status

    rt.rtlib.Crate.build_rlib = build
    return rt


def take(rt):
    for crate in rt.rtlib.crates_below(os.getcwd()):
        if os.path.isdir(crate.rlib):
            note_texts(crate, crate.stamp())
    return 0


def main(words):
    keeps = words[:1] == ['--keep']
    words = words[1:] if keeps else words
    try:
        rt = load_rt()
        if words == ['--take']:
            return take(rt)
        if not keeps:
            rt = with_statements(rt)
    except (SyntaxError, ValueError, AttributeError, ImportError):
        os.execvp('rt', ['rt', *words])
    return rt.main(words)


if __name__ == '__main__':
    sys.exit(main(sys.argv[1:]))
