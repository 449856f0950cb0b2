"""What `checker` and `session` print."""
from lines import Unreadable, number_of, words_of
from reader import SheetFault, read
from rows import Refused
from table import KEPT, MERGED, OUT, STRUCK, WAITING, Table, work_through

LIMIT = 64
UNSAFE_FORM = 18

# the numbers that a line of a script has after its word
NUMBERS = dict(take=2, give=2, strike=2, merge=4, keep=3, verdict=0, open=1)


def check_text(data, table=None):
    try:
        sheet = read(data)
    except SheetFault as fault:
        return f'{fault}\n'
    table = table or Table()
    try:
        table.open(sheet, LIMIT)
    except Refused:
        return 'unknown start\n'
    ended = work_through(table)
    if ended:
        fault, (row, branch) = ended
        return f'{"unknown" if fault == UNSAFE_FORM else "full"} row {row} branch {branch}\n'
    counts = table.counts()
    assert table.holds()
    return f'holds rows {len(table.rows)} kept {counts[KEPT]} merged {counts[MERGED]} struck {counts[STRUCK]}\n'


# Scripts


def step_of(words):
    word = words[0].decode('latin-1')
    if word not in NUMBERS:
        raise Unreadable('unknown word')
    numbers = [number_of(word, 255) for word in words[1:]]
    if len(numbers) < NUMBERS[word]:
        raise Unreadable('too few numbers')
    if len(numbers) > NUMBERS[word]:
        raise Unreadable('too many numbers')
    return word, *numbers


def steps_of(script):
    steps = []
    for number, line in enumerate(script.split(b'\n'), 1):
        words = words_of(line)
        try:
            steps += [step_of(words)] if words else []
        except Unreadable as problem:
            raise Unreadable(f'line {number}: {problem}') from None
    return steps


# Sessions


def answer(table, sheet, word, *numbers):
    """What the table says to a step. The joins of a strike are free within their bound, which is given instead."""
    branch, rest = tuple(numbers[:2]), numbers[2:]
    try:
        if word == 'open':
            table.open(sheet, *numbers)
        elif word == 'verdict':
            counts = table.counts()
            return 'holds' if table.holds() else f'open waiting {counts[WAITING]} out {counts[OUT]}'
        elif word == 'strike':
            return f'ok joins at most {table.strike(branch)}'
        else:
            getattr(table, word)(branch, *rest)
    except Refused as refusal:
        return f'fault {refusal.number}'
    return 'ok'


def session_text(data, limit, script, table=None):
    try:
        sheet = read(data)
        steps = steps_of(script)
    except (SheetFault, Unreadable) as problem:
        return f'{problem}\n'
    table, lines = table or Table(), []
    for step in [('open', limit)] + steps:
        lines.append(' '.join(map(str, step)) + ' ' + answer(table, sheet, *step))
    counts = table.counts()
    marks = ' '.join(f'{mark} {counts[mark]}' for mark in (KEPT, MERGED, STRUCK, WAITING, OUT))
    return '\n'.join(lines + [f'rows {len(table.rows)} {marks}']) + '\n'
