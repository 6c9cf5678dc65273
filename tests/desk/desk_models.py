"""The desk without a browser: its types by tsc, and the unit tests of its models by node --test."""

import os
import pathlib
import re
import shutil
import subprocess
import tempfile

from stand_in import DESK, TOP

HERE = TOP / 'tests' / 'desk'


def scratch_of(desk):
    """A folder in which node takes the modules for modules, with this desk and its tests."""
    folder = pathlib.Path(tempfile.mkdtemp(prefix='desk-models-'))
    shutil.copytree(desk, folder / 'desk')
    (folder / 'tests' / 'desk').mkdir(parents=True)
    for file in [*HERE.glob('*.js'), *HERE.glob('tsconfig*.json')]:
        shutil.copy(file, folder / 'tests' / 'desk')
    (folder / 'package.json').write_text('{"type": "module"}\n')
    return folder


class Beside:
    """A program that runs beside the browser, over a copy of the desk."""

    def __init__(self, *words):
        self.folder = scratch_of(DESK)
        self.said = open(self.folder / 'said', 'w+b')
        environment = {**os.environ, 'DESK_FORMATS': str(TOP / 'docs' / 'FORMATS.md'), 'NO_COLOR': '1'}
        self.process = subprocess.Popen(words, cwd=self.folder, env=environment, stdout=self.said,
                                        stderr=subprocess.STDOUT, stdin=subprocess.DEVNULL)

    def ends(self):
        """Its exit status, and what it said."""
        status = self.process.wait(200)
        self.said.seek(0)
        return status, self.said.read().decode()

    def stop(self):
        if self.process.poll() is None:
            self.process.kill()
            self.process.wait()
        self.said.close()
        shutil.rmtree(self.folder, ignore_errors=True)


TESTS = sorted(f'tests/desk/{file.name}' for file in HERE.glob('*.test.js'))
WORDS = {
    'models': ['node', '--test', '--test-reporter=tap', *TESTS],
    'types': ['tsc', '-p', 'tests/desk/tsconfig.json'],
}


def begins(suite):
    """All of them, while the browser works."""
    for name in WORDS:
        suite.beside[name] = Beside('nice', *WORDS[name])


def ends(suite, name):
    if name not in suite.beside:
        suite.beside[name] = Beside(*WORDS[name])
    return suite.beside[name].ends()


def models(suite):
    status, text = ends(suite, 'models')
    counts = {word: int(number) for word, number in re.findall(r'^# (pass|fail) (\d+)', text, re.MULTILINE)}
    suite.passed += counts.get('pass', 0)
    for name in re.findall(r'^\s*not ok \d+ - (.*)', text, re.MULTILINE):
        suite.fails(name)
    suite.holds(f'the models are tested: {text[-300:]}', counts.get('pass', 0) > 300)
    suite.equals('node says so', counts.get('fail') == 0, status == 0)


def types(suite):
    """JSDoc types of all modules, strictly."""
    suite.equals('types', (0, ''), ends(suite, 'types'))


def sizes_of_modules(suite):
    """A module has at most 300 lines, a line 120 characters."""
    for file in sorted(DESK.glob('*.js')):
        lines = file.read_text().splitlines()
        suite.holds(f'{file.name} has {len(lines)} lines', len(lines) <= 300)
        suite.equals(f'long lines of {file.name}', [], [line for line in lines if len(line) > 120])
