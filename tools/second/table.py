"""The check table and working through, by docs/TABLE.md. A refused call raises its fault."""
import collections

from rows import (Bank, Refused, branch_conditions, candidate, first_row, form_of, is_safe, names_for_inputs, takes)
from terms import is_impossible, sides, with_subterms

MOST_ROWS = 64
WAITING, OUT, STRUCK, MERGED, KEPT = 'waiting', 'out', 'struck', 'merged', 'kept'


def refuse_if(refused, number):
    if refused:
        raise Refused(number)


class Table:
    def __init__(self):
        self.close()

    def close(self):
        self.sheet, self.limit, self.rows, self.marks, self.bank = None, 0, [], {}, Bank([])

    def open(self, sheet, limit):
        self.close()
        refuse_if(not 1 <= limit <= MOST_ROWS, 8)
        row = first_row(sheet)
        bank = Bank(with_subterms(row.vector))
        refuse_if(not is_safe(sheet, row, bank), 9)
        self.sheet, self.limit, self.bank = sheet, limit, bank
        self.add_row(row)

    def add_row(self, row):
        for branch in range(2 ** len(self.sheet.questions)):
            self.marks[len(self.rows), branch] = WAITING
        self.rows.append(row)

    def refuse_if_not_out(self, branch):
        refuse_if(self.marks.get(branch) != OUT, 12)

    def take(self, branch):
        refuse_if(branch not in self.marks, 10)
        refuse_if(self.marks[branch] != WAITING, 11)
        self.marks[branch] = OUT

    def give(self, branch):
        self.refuse_if_not_out(branch)
        self.marks[branch] = WAITING

    def strike(self, branch):
        """The most that the number of joins can be: one less than the terms considered."""
        self.refuse_if_not_out(branch)
        row, number = branch
        inputs = names_for_inputs(self.sheet, self.rows[row])
        conditions = branch_conditions(self.sheet, self.rows[row], inputs, number)
        bank = self.bank.copy()
        bank.add(sides(conditions))
        refuse_if(not is_impossible(conditions), 16)
        self.marks[branch] = STRUCK
        return len(bank.terms) - 1

    def form_at(self, branch, height, bank):
        row, number = branch
        return form_of(candidate(self.sheet, self.rows[row], number), height, bank)

    def merge(self, branch, target, height):
        self.refuse_if_not_out(branch)
        refuse_if(target >= len(self.rows), 10)
        refuse_if(height > self.sheet.bound, 13)
        bank = self.bank.copy()
        form = self.form_at(branch, height, bank)
        refuse_if(takes(self.rows[target], form, bank) is None, 17)
        self.marks[branch] = MERGED

    def keep(self, branch, height):
        self.refuse_if_not_out(branch)
        refuse_if(height > self.sheet.bound, 13)
        bank = self.bank.copy()
        form = self.form_at(branch, height, bank)
        refuse_if(not is_safe(self.sheet, form, bank), 18)
        refuse_if(len(self.rows) >= self.limit, 19)
        self.bank = bank
        self.marks[branch] = KEPT
        self.add_row(form)

    def counts(self):
        """How many branches have each mark."""
        return collections.Counter(self.marks.values())

    def holds(self):
        return bool(self.rows) and not self.counts()[WAITING] and not self.counts()[OUT]


def is_accepted(call, *arguments):
    try:
        call(*arguments)
    except Refused:
        return False
    return True


def is_settled(table, branch):
    """Whether a strike or a merge at the bound is accepted of the branch, which is out."""
    if is_accepted(table.strike, branch):
        return True
    bound = table.sheet.bound
    return any(is_accepted(table.merge, branch, target, bound) for target in range(len(table.rows)))


def work_through(table):
    """Settles what waits. The fault of the last keep and the branch, or None where all rows were gone over."""
    row = 0
    while row < len(table.rows):
        for number in range(2 ** len(table.sheet.questions)):
            branch = row, number
            if table.marks[branch] != WAITING:
                continue
            table.take(branch)
            if is_settled(table, branch):
                continue
            try:
                table.keep(branch, table.sheet.bound)
            except Refused as refusal:
                table.give(branch)
                return refusal.number, branch
        row += 1
    return None
