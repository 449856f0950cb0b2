"""A table that counts what its calls come to."""
from rows import Refused, candidate, takes
from table import Table
from terms import height


class WatchedTable(Table):
    def __init__(self, reached):
        super().__init__()
        self.reached = reached

    def counted(self, word, call, *arguments):
        try:
            result = call(*arguments)
        except Refused as refusal:
            self.reached[f'call {word} refused {refusal.number}'] += 1
            raise
        self.reached[f'call {word} accepted'] += 1
        return result

    def strike(self, branch):
        return self.counted('strike', super().strike, branch)

    def merge(self, branch, target, height):
        self.counted('merge', super().merge, branch, target, height)
        row = self.rows[target]
        bank = self.bank.copy()
        renaming = takes(row, self.form_at(branch, height, bank), bank)
        self.reached['call merge with another name'] += any(old != new for old, new in renaming.items())
        self.reached['call merge with two names made one'] += len(set(renaming.values())) < len(renaming)
        self.reached['call merge with conditions that have to follow'] += bool(row.conditions)

    def keep(self, branch, bound):
        row, number = branch
        self.counted('keep', super().keep, branch, bound)
        whole = candidate(self.sheet, self.rows[row], number)
        form = self.rows[-1]
        self.reached['call keep with a cut'] += any(height(term) > bound for term in whole.vector)
        self.reached['call keep with conditions'] += bool(form.conditions)
        self.reached['call keep with 16 conditions'] += len(form.conditions) == 16
        self.reached['call keep where conditions go'] += len(form.conditions) < len(whole.conditions)
