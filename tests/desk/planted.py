"""Bugs, planted by hand in the desk one after another: each has to be found by a check. `.ci/desk planted` tries
all of them, `.ci/desk planted NAME..` some. A bug is an edit: a text that stands once in a file of the desk, and what
takes its place."""

import os
import pathlib
import shutil
import subprocess
import sys
import tempfile

from stand_in import TOP

# name: the file, what stands there, what is planted, and the checks that are tried.
BUGS = {
    'gaps-missing': (
        'timeline-draw.js', 'fill(context, colours.gap, x, 2, Math.max(2, wide), 3));',
        'fill(context, colours.overview, x, 2, Math.max(2, wide), 3));', ['drawn']),
    'two-items': (
        'timeline.js', 'blocks.findIndex((block) => block.place > this.cursor)',
        'blocks.findIndex((block) => block.place > this.cursor) + 1', ['items']),
    'shift-ignored': (
        'drag.js', 'this.view.sourcing.put(source, lands.gap, true, lands.place, event.shiftKey);',
        'this.view.sourcing.put(source, lands.gap, true, lands.place, false);', ['shift']),
    'one-frame-off': (
        'aired-model.js', 'totals[row.status] += row.frames;', 'totals[row.status] += row.frames - 1;', ['models']),
    'stripes-gone': (
        'timeline-draw.js', 'if (block.recalled) hatch(context, colours.recalled, part, true);', '', ['drawn']),
    'side-hidden': (
        'desk.css', '/* Less room:',
        '@media (max-width: 81.25rem) { .below > .side { display: none; } }\n/* Less room:',
        ['sizes']),
    'counts-swapped': (
        'tables.js', '{ OK: ok, SLIP: slip, WRONG: wrong, MISSED: missed }',
        '{ OK: ok, SLIP: wrong, WRONG: slip, MISSED: missed }', ['models']),
    'row-of-a-part': (
        'batch-form.js', '{ at: String(Number(refusal.at) + before[index]) }', '{ at: refusal.at }', ['split']),
    'stale-taken-out': (
        'day-forms.js', 'if (block && isSame(block, shown)) return block;', 'if (block) return block;', ['stale']),
    'wipe-lost': (
        'edits.js', "...(piece.kind.startsWith('W') ? { wipe: Number(piece.kind.slice(1)) } : {}),", '', ['models']),
    'colleague-undone': (
        'edits.js', '&& one.kind === other.kind && one.mix === other.mix;', ';', ['kinds']),
    'undo-stuck': (
        'day-edits.js', 'fails.impossible();', 'fails.lost();', ['undoes']),
    'doubt-forgotten': (
        'plan-changes.js', 'const kept = taken(this.key);', 'const kept = null;', ['wholes']),
    'scan-joined': (
        'scans.js', "form.inputs[into].value = '';", '', ['scanned']),
    'typed-overwritten': (
        'day-edit-forms.js', 'if (offered?.number === block.number && edit.typed.size > 0) {', 'if (false) {',
        ['typed']),
    'next-swallowed': (
        'form.js', 'if (this.doubt.values || !inDoubt) return;', 'return;', ['swallowed']),
    'file-twice': (
        'report.js', 'const known = this.store.asBefore(sum, rows);', 'const known = rows;', ['bulk']),
    'closed-unasked': (
        'bulk-run.js', 'if (runs.size > 0) event.preventDefault();', '', ['bulk']),
    'moved-replaced': (
        'day-edits.js', 'this.view.sourcing.asksFirst = true;', '', ['replaces']),
    'out-of-plan': (
        'pull-model.js', 'if (!tape) continue;', 'if (!tape || tape.slot === null) continue;', ['models']),
    'history-full': (
        'history.js', 'const MOST_ITEMS = 20000;', 'const MOST_ITEMS = 20000000;', ['models']),
    'redo-without-dissolve': (
        'history.js', 'return this.last(this.undone);',
        "const entry = this.last(this.undone);\n        return entry && { ...entry, add: entry.add.map((piece) => "
        "({ ...piece, kind: 'C', mix: 0 })) };", ['redone']),
    'redo-behind-a-change': ('history.js', 'this.undone = [];\n        this.keep();', 'this.keep();', ['redone']),
    'undo-of-another-day': ('history.js', 'this.key = `${place}/history`;', "this.key = 'history';", ['redone']),
    'trim-snaps-always': (
        'timeline-press.js', 'each !== block);\n        const near = event.shiftKey ? -1 : SNAPS * timeline.perPixel;',
        'each !== block);\n        const near = SNAPS * timeline.perPixel;', ['trims']),
    'recalled-lent-to': (
        'view-clips.js', "offers.filter((each) => each.state === 'open')", 'offers', ['recalled']),
    'paper-cut': ('sheet.js', 'const lines = rows.map(', 'const lines = rows.slice(0, 500).map(', ['rows']),
    'file-cut': ('sheet.js', 'const rows = what.rows.map(', 'const rows = what.rows.slice(0, 500).map(', ['rows']),
    'last-day-unread': ('planned-where.js', 'day <= last', 'day < last', ['finds']),
    'import-unlooked': (
        'day-list-forms.js', 'values.before = await forms.blocksNow();', 'values.before = view.day.blocks;',
        ['imports']),
    'out-shows-all': (
        'shelf-model.js', "if (shown === 'out' && (!row.tape || row.slot !== null)) return false;", '', ['out']),
    'scan-as-typed': ('view-vault.js', 'values.barcode = values.barcode.toUpperCase();', '', ['scanned']),
    'bulk-leaves-doubt': ('bulk-run.js', 'if (row.state) continue;', 'if (row.state || row.doubt) continue;', ['bulk']),
    'pull-by-tape': (
        'pull-model.js', '(one.slot ?? Infinity) - (other.slot ?? Infinity) || one.tape - other.tape',
        'one.tape - other.tape', ['models']),
    'csv-unquoted': ('csv.js', "`\"${text.replaceAll('\"', '\"\"')}\"`", '`\"${text}\"`', ['models']),
    'draft-elsewhere': (
        'form.js', '`${this.what.place}/${this.what.name}/${name}`', '`${this.what.name}/${name}`', ['drafts']),
    'seal-unasked': (
        'day-list-forms.js', "confirm: () => `Day ${view.number} is then sealed for good: its items never change.`,", '',
        ['questions']),
    'parts-as-one-batch': (
        'batch-form.js', '/asrun/${values.batch + index}`', '/asrun/${values.batch}`', ['split']),
    'refused-item-missed': ('plan-changes.js', '[(refusal.item ?? 0) - 1]', '[refusal.item ?? 0]', ['wholes']),
    'kept-at-logout': ('sign-on.js', 'forgetAll();\n', '\n', ['login']),
    'read-overtakes': ('requests.js', '[this.turn, this.reading.get(path)]', '[this.turn]', ['models']),
    'label-of-drop': (
        'timecode.js', 'Math.floor((rest - 2) / DROP_MINUTE)', 'Math.floor((rest - 1) / DROP_MINUTE)', ['rules']),
    'list-blanks': (
        'edl.js', "{ title: text.slice(6).replace(BLANKS, '') }", '{ title: text.slice(6).trim() }', ['rules']),
    'gateway-refuses': (
        'office.js', '(status < 500 || value.code === 100 || value.code === 501)', 'true', ['gateway']),
}


def with_bug(name):
    """A copy of the desk that has the bug."""
    file, stands, planted, _ = BUGS[name]
    folder = pathlib.Path(tempfile.mkdtemp(prefix='desk-planted-'))
    shutil.copytree(TOP / 'desk', folder / 'desk')
    text = (folder / 'desk' / file).read_text()
    if text.count(stands) != 1:
        raise AssertionError(f'{name}: what is edited stands {text.count(stands)} times in {file}')
    (folder / 'desk' / file).write_text(text.replace(stands, planted))
    folder.chmod(0o755)
    return folder


def tries(wanted):
    """How many of the bugs are found, and how many aren't."""
    found, missed = 0, 0
    for name in wanted or BUGS:
        folder = with_bug(name)
        try:
            words = [sys.executable, str(TOP / '.ci' / 'desk'), *BUGS[name][3]]
            done = subprocess.run(words, env={**os.environ, 'DESK': str(folder / 'desk')}, stdout=subprocess.PIPE,
                                  stderr=subprocess.STDOUT, stdin=subprocess.DEVNULL, timeout=1200, check=False)
        finally:
            shutil.rmtree(folder)
        said = done.stdout.decode().splitlines()
        faults = [line for line in said if line.startswith('desk: failed: ')]
        if done.returncode == 1 and faults:
            found += 1
            print(f'desk: planted {name}: found: {faults[0].removeprefix("desk: failed: ")[:150]}', flush=True)
        else:
            missed += 1
            print(f'desk: failed: planted {name}: no check found it: {said[-1:]}', flush=True)
    return found, missed
