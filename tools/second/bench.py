"""What `bench_run` prints, by docs/MODELS.md, RUNFILE.md and BENCH.md."""
import collections

from lines import Unreadable, number_of, words_of
from reader import APPLIED, CLAIM, INPUT, QUESTION, START_VALUE, SheetFault, read
from rows import chosen, truths

VALUES = 2 ** 32
MOST_STEPS = 10000
STARTS = 8
SYMBOLS = 32
COEFFICIENTS = 2 ** 16

# the fewest and the most numbers of a directive
NUMBERS = dict(listed=(1, 1), affine=(1, 1), entry=(2, 5), curve=(5, 5), start=(0, None), steps=(1, 1),
               inputs=(0, None))


class Fault(Exception):
    """The layer and the number of a fault."""

    def __init__(self, layer, number):
        super().__init__(f'{layer} fault {number}')


# Run files


class RunFile:
    def __init__(self):
        self.plant = self.number = self.starts = self.steps = None
        self.lines, self.inputs = [], []                           # entries or curves

    def refuse_place(self, word):
        """Whether the directive may stand here."""
        if word in ('listed', 'affine'):
            problem = 'the plant is named twice' if self.plant else None
        elif not self.plant:
            problem = 'the plant is not named yet'
        else:
            problem = {('entry', 'affine'): 'an entry for an affine plant',
                       ('curve', 'listed'): 'a curve for a listed plant'}.get((word, self.plant))
            if word == 'start' and self.starts is not None:
                problem = 'a second start line'
            if word == 'steps' and self.steps is not None:
                problem = 'a second steps line'
        if problem:
            raise Unreadable(problem)

    def add(self, word, numbers):
        if word in ('listed', 'affine'):
            self.plant, [self.number] = word, numbers
        elif word in ('entry', 'curve'):
            if numbers[0] >= SYMBOLS:
                raise Unreadable('a symbol above 31')
            if word == 'curve' and any(number >= COEFFICIENTS for number in numbers[1:]):
                raise Unreadable('a coefficient above 65535')
            self.lines.append(numbers)
        elif word == 'start':
            self.starts = numbers
        elif word == 'steps':
            [self.steps] = numbers
        else:
            self.inputs += numbers

    def say(self, words):
        """What one line says."""
        word = words[0].decode('latin-1')
        if word not in NUMBERS:
            raise Unreadable('unknown directive')
        numbers = [number_of(word, VALUES - 1) for word in words[1:]]
        self.refuse_place(word)
        fewest, most = NUMBERS[word]
        if len(numbers) < fewest:
            raise Unreadable('too few numbers')
        if most is not None and len(numbers) > most:
            raise Unreadable('too many numbers')
        self.add(word, numbers)

    def refuse_end(self):
        for word, given in (('plant', self.plant), ('start line', self.starts), ('steps line', self.steps)):
            if given is None:
                raise Unreadable(f'the file ends without a {word}')


def run_file(text):
    run, lines = RunFile(), text.split(b'\n')
    for number, line in enumerate(lines, 1):
        try:
            words = words_of(line)
            if words:
                run.say(words)
            if number == len(lines):
                run.refuse_end()
        except Unreadable as problem:
            raise Unreadable(f'run file line {number}: {problem}') from None
    return run


# Plants


def listed(default, entries):
    def apply(symbol, values):
        for number, result, *at in entries:
            if number == symbol and at == values:
                return result
        return default
    return apply


def affine(modulus, curves):
    if modulus == 0:
        raise Fault('model', 23)

    def apply(symbol, values):
        for number, *coefficients, rest in curves:
            if number == symbol:
                return (sum(p * value for p, value in zip(coefficients, values)) + rest) % modulus
        return 0
    return apply


# Runs


Configuration = collections.namedtuple('Configuration', 'bits readings')


def value(sheet, apply, number, readings, inputs):
    way, thing, *used = sheet.terms[number]
    if way == APPLIED:
        return apply(thing, [value(sheet, apply, k, readings, inputs) for k in used[:sheet.arity[thing]]])
    return inputs[thing] if way == INPUT else readings[thing]


def agreed(sheet, apply, pairs, readings, inputs=()):
    return [value(sheet, apply, left, readings, inputs) == value(sheet, apply, right, readings, inputs)
            for left, right in pairs]


def start(sheet, apply, starts):
    return Configuration(sheet.start_bits,
                         [starts[k] if way == START_VALUE else apply(k, []) for way, k in sheet.starts])


def step(sheet, apply, now, inputs):
    known = truths(sheet, now.bits, {QUESTION: agreed(sheet, apply, sheet.questions, now.readings, inputs)})
    bits = [known[sheet.next_bit[k]] if k in sheet.next_bit else bit for k, bit in enumerate(now.bits)]
    readings = [value(sheet, apply, chosen(sheet, sheet.next_reading[k], known), now.readings, inputs)
                if k in sheet.next_reading else reading for k, reading in enumerate(now.readings)]
    return Configuration(bits, readings)


def is_invariant(sheet, apply, now):
    return truths(sheet, now.bits, {CLAIM: agreed(sheet, apply, sheet.claims, now.readings)})[sheet.invariant]


def run(sheet, apply, starts, steps, inputs):
    """Whether the last configuration breaks, its number and itself."""
    if steps > MOST_STEPS:
        raise Fault('bench', 20)
    if len(inputs) != steps * sheet.inputs:
        raise Fault('bench', 21)
    if len(starts) != STARTS:
        raise Fault('bench', 22)
    now, number = start(sheet, apply, starts), 0
    while is_invariant(sheet, apply, now):
        if number == steps:
            return False, number, now
        now = step(sheet, apply, now, inputs[number * sheet.inputs:(number + 1) * sheet.inputs])
        number += 1
    return True, number, now


# The text


def spaced(words):
    return ''.join(f' {word}' for word in words)


def plant_line(given):
    kind, lines = ('default', 'entries') if given.plant == 'listed' else ('modulus', 'curves')
    return f'plant {given.plant} {kind} {given.number} {lines} {len(given.lines)}'


def run_lines(data, given):
    yield plant_line(given)
    yield 'start' + spaced(given.starts)
    yield f'steps {given.steps} inputs {len(given.inputs)}'
    try:
        sheet = read(data)
        apply = (listed if given.plant == 'listed' else affine)(given.number, given.lines)
        breaks, number, last = run(sheet, apply, given.starts, given.steps, given.inputs)
    except (SheetFault, Fault) as fault:
        yield str(fault)
        return
    yield f'answer break {number}' if breaks else 'answer none'
    yield f'last {number} bits{spaced(map(int, last.bits))} readings{spaced(last.readings)}'


def bench_text(data, text):
    try:
        given = run_file(text)
    except Unreadable as problem:
        return f'{problem}\n'
    return '\n'.join(run_lines(data, given)) + '\n'
