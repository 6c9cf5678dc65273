"""All checks of the desk, in their order."""

from desk_day_checks import day_by_keys, day_by_mouse, lent_for_days
from desk_defect_checks import (by_keys_of_a_line, focus, questions, replaces, shift_drop, slow, stale, touch, twice,
                                watched, words_go)
from desk_form_checks import (bulk, columns, counts, dates, forty, own_length, scanned, split_batches,
                              ten_clips)
from desk_gateway_checks import gateway, halted
from desk_list_checks import choices, faults, mapped
from desk_login_checks import login
from desk_kept_checks import drafts, imports, out_of_shelf, recalled, redone, rows_on_paper, trims_freely
from desk_large_checks import (dropped_files, large_day, large_vault, names_for_readers, pictures, policy, timecode,
                               two_windows)
from desk_look_checks import drawn, gaps, printed, sizes, themes
from desk_many_checks import many
from desk_models import begins, models, sizes_of_modules, types
from desk_plan_checks import goes, inserts, named, period
from desk_refusal_checks import each_refusal, no_connection, real_refusals, refusals_have_words, texts_are_texts
from desk_room_checks import fits, forced, now
from desk_sheet_checks import sheet
from desk_rules import rules
from desk_suite import Suite
from desk_wait_checks import progress
from desk_work_checks import (copies, drags, finds, kinds, moves, pulls, relinks, several, swallowed, typed,
                              undoes, wholes)

CHECKS = [
    ('modules', sizes_of_modules),
    ('policy', policy),
    ('timecode', timecode),
    ('mouse', day_by_mouse),
    ('keyboard', day_by_keys),
    ('lent', lent_for_days),
    ('dropped', dropped_files),
    ('windows', two_windows),
    ('words', refusals_have_words),
    ('refusals', real_refusals),
    ('forms', each_refusal),
    ('texts', texts_are_texts),
    ('connection', no_connection),
    ('gateway', gateway),
    ('halted', halted),
    ('login', login),
    ('stale', stale),
    ('watched', watched),
    ('touch', touch),
    ('twice', twice),
    ('replaces', replaces),
    ('questions', questions),
    ('slow', slow),
    ('about', words_go),
    ('focus', focus),
    ('shift', shift_drop),
    ('items', by_keys_of_a_line),
    ('copies', copies),
    ('moves', moves),
    ('drags', drags),
    ('several', several),
    ('undoes', undoes),
    ('wholes', wholes),
    ('kinds', kinds),
    ('typed', typed),
    ('sheet', sheet),
    ('inserts', inserts),
    ('goes', goes),
    ('named', named),
    ('period', period),
    ('swallowed', swallowed),
    ('redone', redone),
    ('imports', imports),
    ('trims', trims_freely),
    ('recalled', recalled),
    ('rows', rows_on_paper),
    ('out', out_of_shelf),
    ('drafts', drafts),
    ('pulls', pulls),
    ('finds', finds),
    ('relinks', relinks),
    ('faults', faults),
    ('choices', choices),
    ('progress', progress),
    ('tenclips', ten_clips),
    ('scanned', scanned),
    ('ownlength', own_length),
    ('bulk', bulk),
    ('many', many),
    ('split', split_batches),
    ('mapped', mapped),
    ('dates', dates),
    ('columns', columns),
    ('counts', counts),
    ('forty', forty),
    ('sizes', sizes),
    ('fits', fits),
    ('now', now),
    ('forced', forced),
    ('themes', themes),
    ('drawn', drawn),
    ('printed', printed),
    ('gaps', gaps),
    ('readers', names_for_readers),
    ('day', large_day),
    ('vault', large_vault),
    ('pictures', pictures),
    ('types', types),
    ('models', models),
    ('rules', rules),
]
