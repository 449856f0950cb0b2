"""What `branches` prints: row 0, and for each of its branches the first step of the exploration."""
from reader import SheetFault, read
from rows import Bank, Refused, branch_conditions, candidate, first_row, form_of, is_safe, names_for_inputs, takes
from terms import is_impossible, term_text, with_subterms


def listed(words, between):
    return between.join(words) if words else 'none'


def conditions_text(conditions):
    texts = [f'{term_text(left)} {"=" if equal else "#"} {term_text(right)}' for left, right, equal in conditions]
    return 'conditions ' + listed(texts, ', ')


def row_text(row):
    bits, readings = [str(int(bit)) for bit in row.bits], [term_text(term) for term in row.vector]
    return f'bits {listed(bits, " ")} readings {listed(readings, " ")} {conditions_text(row.conditions)}'


def safety_text(sheet, form, bank):
    try:
        return 'yes' if is_safe(sheet, form, bank) else 'no'
    except Refused as refusal:
        return f'fault {refusal.number}'


def taking_text(older, form, bank):
    renaming = takes(older, form, bank)
    if renaming is None:
        return 'no'
    return 'yes renaming ' + listed([f'x{old} to x{new}' for old, new in sorted(renaming.items())], ', ')


def branch_lines(sheet, row, branch):
    conditions = branch_conditions(sheet, row, names_for_inputs(sheet, row), branch)
    yield conditions_text(conditions)
    if is_impossible(conditions):
        yield 'impossible'
        return
    bank = Bank(with_subterms(row.vector))
    try:
        form = form_of(candidate(sheet, row, branch), sheet.bound, bank)
    except Refused as refusal:
        yield f'form fault {refusal.number}'
        return
    yield f'form {row_text(form)}'
    yield f'safe {safety_text(sheet, form, bank)}'
    yield f'taken {taking_text(row, form, bank)}'


def branches_text(data):
    try:
        sheet = read(data)
    except SheetFault as fault:
        return f'{fault}\n'
    row = first_row(sheet)
    lines = [f'row 0 {row_text(row)}']
    for branch in range(2 ** len(sheet.questions)):
        lines += [f'branch {branch} {line}' for line in branch_lines(sheet, row, branch)]
    return '\n'.join(lines) + '\n'
