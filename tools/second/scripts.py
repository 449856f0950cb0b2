"""Random scripts for a sheet. A table is worked along with them, so that the calls have something to say."""
from reader import SheetFault, read
from session import answer
from table import MOST_ROWS, OUT, WAITING, Table, work_through

PROBLEMS = [b'tak 0 0', b'take 0', b'take 0 0 0', b'take 0 256', b'take 0 x', b'take -1 0', b'keep 0 0', b'verdict 0',
            b'open', b'merge 0 0 0', b'merge 0 0 0 0 0', b'give 0 0x0', b'Take 0 0', b'strike 0 1e1',
            b'take 0 99999999999999999999 x']


def near(rng, count):
    """A number below the count, or now and then past it."""
    if count and rng.randrange(12):
        return rng.randrange(count)
    return rng.choice([count, count + 1, rng.randrange(256), 255])


def with_mark(table, mark):
    return [branch for branch, its in table.marks.items() if its == mark]


def some_branch(rng, table, mark):
    """A branch with this mark, mostly an early one or one of the last row; or any at all."""
    fit = with_mark(table, mark)
    if not fit or not rng.randrange(10):
        return near(rng, len(table.rows)), near(rng, 2 ** len(table.sheet.questions) if table.sheet else 1)
    return rng.choice(rng.choice([fit[:6], [branch for branch in fit if branch[0] == fit[-1][0]][:3]]))


def some_height(rng, table):
    bound = table.sheet.bound if table.sheet else 1
    return rng.choice([bound, bound, bound, rng.randrange(bound + 1), near(rng, bound + 1)])


def settling(rng, table, branch, way):
    """A strike, a merge or a keep of the branch."""
    if way == 'strike':
        return 'strike', *branch
    if way == 'keep':
        return 'keep', *branch, some_height(rng, table)
    return 'merge', *branch, near(rng, len(table.rows)), some_height(rng, table)


def some_call(rng, table, keeps):
    """`keeps` is how likely a keep is."""
    kind = rng.random()
    if kind < 0.04:
        return 'verdict',
    if kind < 0.08:
        return 'give', *some_branch(rng, table, OUT)
    if with_mark(table, WAITING) and (kind < 0.45 or not with_mark(table, OUT)) or not rng.randrange(10):
        return 'take', *some_branch(rng, table, WAITING)
    if not with_mark(table, OUT) and rng.randrange(4):
        return 'verdict',
    way = 'keep' if rng.random() < keeps else rng.choice(['strike', 'merge', 'merge'])
    return settling(rng, table, some_branch(rng, table, OUT), way)


def settle_all(rng, table, sheet, most):
    """Calls that offer strike, merges and keep of each branch that is out or waits, in any order."""
    steps = []

    def made(*step):
        steps.append(step)
        return answer(table, sheet, *step).startswith('ok')

    while len(steps) < most:
        due = with_mark(table, OUT) + with_mark(table, WAITING)
        if not due:
            break
        branch = rng.choice(due[:4])
        if table.marks[branch] == WAITING:
            made('take', *branch)
        bound = sheet.bound
        targets = rng.sample(range(len(table.rows)), min(4, len(table.rows)))
        if made('strike', *branch) or any(made('merge', *branch, target, bound) for target in targets):
            continue
        if not made('keep', *branch, bound) and rng.randrange(3):
            break
    return steps


class RecordingTable(Table):
    """A table that writes down the calls of working through."""

    def __init__(self):
        super().__init__()
        self.steps = []

    def take(self, branch):
        self.steps.append(('take', *branch))
        super().take(branch)

    def give(self, branch):
        self.steps.append(('give', *branch))
        super().give(branch)

    def strike(self, branch):
        self.steps.append(('strike', *branch))
        return super().strike(branch)

    def merge(self, branch, target, height):
        self.steps.append(('merge', *branch, target, height))
        super().merge(branch, target, height)

    def keep(self, branch, height):
        self.steps.append(('keep', *branch, height))
        super().keep(branch, height)


def working_steps(_rng, sheet, limit):
    table = RecordingTable()
    if answer(table, sheet, 'open', limit) == 'ok':
        work_through(table)
    return table.steps + [('verdict',)]


def deep_steps(rng, sheet, limit):
    """Keeps of one row's form after the other's, and then much tried on the last rows: where many conditions stand, and
    where names and terms are nearly wanting."""
    table, steps = Table(), []

    def made(*step):
        steps.append(step)
        return answer(table, sheet, *step).startswith('ok')

    def some_number():
        """Of a branch with few true answers, or any."""
        questions = len(sheet.questions)
        return rng.choice([0, 2 ** rng.randrange(questions) if questions else 0, rng.randrange(2 ** questions)])

    answer(table, sheet, 'open', limit)
    failed = 0
    while table.rows and failed < 4 and len(steps) < 300:
        branch = len(table.rows) - 1, some_number()
        if table.marks[branch] == WAITING:
            made('take', *branch)
        if rng.randrange(3) == 0:
            made('strike', *branch)
        failed = 0 if made('keep', *branch, some_height(rng, table)) else failed + 1
    for _ in range(30 if table.rows else 0):
        branch = max(0, len(table.rows) - rng.randrange(1, 4)), some_number()
        if table.marks[branch] == WAITING:
            made('take', *branch)
        made('strike', *branch)
        made('merge', *branch, rng.randrange(len(table.rows)), some_height(rng, table))
        made('keep', *branch, some_height(rng, table))
    return steps + [('verdict',)]


def some_steps(rng, sheet, limit):
    table, steps, keeps = Table(), [], rng.choice([0.2, 0.5, 0.9])
    answer(table, sheet, 'open', limit)
    for _ in range(rng.choice([10, 40, 100])):
        if not rng.randrange(5 if not table.rows else 60):
            step = 'open', rng.choice([0, 1, 2, 3, MOST_ROWS, MOST_ROWS, MOST_ROWS + 1, 255])
        else:
            step = some_call(rng, table, keeps)
        answer(table, sheet, *step)
        steps.append(step)
        if not rng.randrange(40) and table.rows:
            steps += settle_all(rng, table, sheet, 60)
    return steps + [('verdict',)]


def line_text(rng, step):
    """The step's line, oddly laid out now and then."""
    words = [str(word) if rng.randrange(20) else str(word).zfill(5) for word in step]
    words[0] = step[0]
    line = ' '.join(words)
    odd = ['\t' + line, line.replace(' ', ' \t '), line + '\r', line + '# note', line + ' # 1 2', '\n' + line]
    return line if rng.randrange(12) else rng.choice(odd)


def random_script(rng, data):
    """A row limit and a script for the sheet in the bytes."""
    limits = [MOST_ROWS, rng.randrange(1, 9), rng.randrange(1, MOST_ROWS + 1), rng.choice([0, MOST_ROWS + 1, 255])]
    limit = rng.choices(limits, [6, 3, 2, 1])[0]
    try:
        sheet = read(data)
        steps = rng.choices([some_steps, deep_steps, working_steps], [4, 4, 2])[0](rng, sheet, limit)
    except SheetFault:
        steps = [('take', 0, 0), ('verdict',)]
    lines = [line_text(rng, step).encode() for step in steps]
    if not rng.randrange(25):
        lines.insert(rng.randrange(len(lines) + 1), rng.choice(PROBLEMS))
    return limit, b'\n'.join(lines) + rng.choice([b'', b'\n'])
