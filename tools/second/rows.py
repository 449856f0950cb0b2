"""Rows, candidates, forms, matching and safety, by docs/FORMS.md."""
import collections

from reader import APPLIED, AND, BIT, CLAIM, INPUT, NOT, QUESTION, READING, START_VALUE, TAKE, TRUE
from terms import (NAMES, Condition, arguments, changed, follows, height, is_impossible, is_name, names_in, sides,
                   with_changes, with_subterms)

ROOM = 512                                                         # different terms
MOST_CONDITIONS = 16                                               # of a row
NAMES_WANTING, TERMS_WANTING = 14, 15

Row = collections.namedtuple('Row', 'bits vector conditions')


class Refused(Exception):
    """A call is refused with the fault of this number."""

    @property
    def number(self):
        return self.args[0]


class Bank:
    """The different terms that were built so far."""

    def __init__(self, terms):
        self.terms = set(terms)

    def add(self, terms):
        self.terms |= with_subterms(terms)
        if len(self.terms) > ROOM:
            raise Refused(TERMS_WANTING)

    def copy(self):
        return Bank(self.terms)


def terms_of(row):
    return list(row.vector) + sides(row.conditions)


def lowest_free(taken):
    for name in range(NAMES):
        if name not in taken:
            return name
    raise Refused(NAMES_WANTING)


# What the sheet says of a row


def answers(number, count):
    """The answers of a branch to the questions, or of a case to the claims."""
    return [bool(number >> k & 1) for k in range(count)]


def truths(sheet, bits, answers_to):
    """The truth of each formula. One that needs an answer which isn't given has a value that nothing may use."""
    known = []
    for way, first, second in sheet.formulas:
        if way == TRUE:
            known.append(True)
        elif way == BIT:
            known.append(bits[first])
        elif way in (QUESTION, CLAIM):
            known.append(answers_to[way][first] if way in answers_to else None)
        elif way == NOT:
            known.append(not known[first])
        elif way == AND:
            known.append(known[first] and known[second])
        else:
            known.append(known[first] or known[second])
    return known


def chosen(sheet, choice, known):
    """The sheet's term that the choice comes to."""
    while True:
        way, first, yes, no = sheet.choices[choice]
        if way == TAKE:
            return first
        choice = yes if known[first] else no


def term_over(sheet, number, vector, inputs):
    way, thing, *used = sheet.terms[number]
    if way == READING:
        return vector[thing]
    if way == INPUT:
        return inputs[thing]
    assert way == APPLIED
    return thing, *[term_over(sheet, below, vector, inputs) for below in used[:sheet.arity[thing]]]


def compared(sheet, pairs, signs, vector, inputs=()):
    return [Condition(term_over(sheet, left, vector, inputs), term_over(sheet, right, vector, inputs), equal)
            for (left, right), equal in zip(pairs, signs)]


def first_row(sheet):
    return Row(sheet.start_bits, [number if way == START_VALUE else (number,) for way, number in sheet.starts], [])


def names_for_inputs(sheet, row):
    names = []
    for _ in range(sheet.inputs):
        names.append(lowest_free(names_in(terms_of(row)).union(names)))
    return names


def branch_conditions(sheet, row, inputs, branch):
    signs = answers(branch, len(sheet.questions))
    return compared(sheet, sheet.questions, signs, row.vector, inputs) + row.conditions


def candidate(sheet, row, branch):
    inputs = names_for_inputs(sheet, row)
    known = truths(sheet, row.bits, {QUESTION: answers(branch, len(sheet.questions))})
    bits = [known[sheet.next_bit[k]] if k in sheet.next_bit else bit for k, bit in enumerate(row.bits)]
    vector = [term_over(sheet, chosen(sheet, sheet.next_reading[k], known), row.vector, inputs)
              if k in sheet.next_reading else term for k, term in enumerate(row.vector)]
    return Row(bits, vector, branch_conditions(sheet, row, inputs, branch))


# Forms


def place_of_cut(term):
    while height(term) > 1:
        term = next(below for below in arguments(term) if height(below) == height(term) - 1)
    return term


def cut(row, old, name):
    becomes = {old: name}
    return Row(row.bits, [changed(term, becomes) for term in row.vector], with_changes(row.conditions, becomes))


def kept_conditions(row, bound):
    standing = names_in(row.vector)
    low = [c for c in row.conditions if height(c.left) <= bound and height(c.right) <= bound]
    named = [c for c in low if names_in([c.left, c.right]) <= standing]
    once = [c for k, c in enumerate(named) if c not in named[:k]]
    return once[:MOST_CONDITIONS]


def form_of(row, bound, bank):
    """The candidate's form; the bank gets what was built."""
    bank.add(terms_of(row))
    while True:
        high = [term for term in row.vector if height(term) > bound]
        if not high:
            return Row(row.bits, row.vector, kept_conditions(row, bound))
        name = lowest_free(names_in(terms_of(row)))
        row = cut(row, place_of_cut(high[0]), name)
        bank.add(terms_of(row))


# Matching and safety


def matches(older, newer, renaming):
    """Whether the older term can become the newer one; notes what each of its names becomes."""
    if is_name(older):
        return is_name(newer) and renaming.setdefault(older, newer) == newer
    if is_name(newer) or older[0] != newer[0] or len(older) != len(newer):
        return False
    return all(matches(*pair, renaming) for pair in zip(arguments(older), arguments(newer)))


def renaming_to(older, form):
    """What each name of the older row becomes where bits and vector fit, or None. A row's conditions have only names
    that stand in its vector."""
    renaming = {}
    fits = older.bits == form.bits and all(matches(*pair, renaming) for pair in zip(older.vector, form.vector))
    return renaming if fits else None


def takes(older, form, bank):
    """The renaming by which the older row takes the form, or None."""
    renaming = renaming_to(older, form)
    if renaming is None:
        return None
    wanted = with_changes(older.conditions, renaming)
    bank.copy().add(sides(wanted))
    return renaming if all(follows(form.conditions, condition) for condition in wanted) else None


def is_safe(sheet, form, bank):
    signs = answers(0, len(sheet.claims))
    bank.copy().add(sides(compared(sheet, sheet.claims, signs, form.vector)))
    return not any(breaks(sheet, form, case) for case in range(2 ** len(sheet.claims)))


def breaks(sheet, form, case):
    """Whether the invariant is false in this case of the claims, and some meaning and values come to the case."""
    signs = answers(case, len(sheet.claims))
    if truths(sheet, form.bits, {CLAIM: signs})[sheet.invariant]:
        return False
    return not is_impossible(compared(sheet, sheet.claims, signs, form.vector) + form.conditions)
