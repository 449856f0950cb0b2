"""Random sheets, each from a seed's numbers alone."""
from reader import (AND, APPLIED, BIT, CLAIM, HIGHEST, INPUT, LENGTH, MOST, NOT, OR, QUESTION, READING, START_CONSTANT,
                    START_VALUE, TAKE, TEST, TRUE)


class Draft:
    """A lawful sheet in the making: its bytes so far, and what a later record must know of them."""

    def __init__(self, rng):
        self.rng, self.data = rng, b''
        self.count = {letter: 0 for letter in LENGTH}
        self.arity, self.height, self.has_input = [], [], []
        self.has_question, self.has_claim = [], []
        self.starts, self.atoms_of = [], []                        # of bits; the way and the number of each formula

    def record(self, letter, *body):
        """Bytes that the body doesn't use are 0. The number of the thing that is new."""
        self.data += letter.encode() + bytes(body) + bytes(LENGTH[letter] - len(body))
        self.count[letter] += 1
        return self.count[letter] - 1

    def has_room(self, letter):
        return self.count[letter] < MOST[letter]

    def some(self, letter):
        return self.rng.randrange(self.count[letter])

    def without(self, unwanted):
        return self.rng.choice([k for k, found in enumerate(unwanted) if not found])

    def bit(self):
        self.starts.append(self.rng.randrange(2))
        self.record('B', self.starts[-1])

    def symbol(self, arity):
        self.arity.append(arity)
        return self.record('F', arity)

    def start(self):
        if 0 not in self.arity or self.rng.randrange(3):
            return self.record('R', START_VALUE, self.rng.randrange(8))
        return self.record('R', START_CONSTANT, self.without(self.arity))

    def term(self, way, thing, used=()):
        self.height.append(1 + max(self.height[below] for below in used) if used else 0)
        self.has_input.append(way == INPUT or any(self.has_input[below] for below in used))
        return self.record('T', way, thing, *used)

    def applied(self, symbol):
        """A term over earlier ones, unless it would be too high."""
        used = [self.some('T') for _ in range(self.arity[symbol])] if self.count['T'] else []
        if len(used) == self.arity[symbol] and all(self.height[term] < HIGHEST for term in used):
            self.term(APPLIED, symbol, used)

    def question(self):
        self.record('Q', self.some('T'), self.some('T'))

    def claim(self):
        if not all(self.has_input):
            self.record('C', self.without(self.has_input), self.without(self.has_input))

    def formula(self, way, *parts):
        below = parts if way >= NOT else ()
        self.has_question.append(way == QUESTION or any(self.has_question[k] for k in below))
        self.has_claim.append(way == CLAIM or any(self.has_claim[k] for k in below))
        self.atoms_of.append((way, parts[0] if parts else 0))
        return self.record('L', way, *parts)

    def atoms(self):
        self.formula(TRUE)
        for way, letter in ((BIT, 'B'), (QUESTION, 'Q'), (CLAIM, 'C')):
            for number in range(self.count[letter]):
                self.formula(way, number)

    def combined(self, most):
        """Formulas over earlier ones, operands shared."""
        for _ in range(most):
            if self.has_room('L'):
                way = self.rng.choice([NOT, AND, OR])
                self.formula(way, *[self.some('L') for _ in range(1 if way == NOT else 2)])

    def choice(self):
        if self.count['K'] == 0 or self.rng.randrange(2):
            self.record('K', TAKE, self.some('T'))
        else:
            self.record('K', TEST, self.without(self.has_claim), self.some('K'), self.some('K'))

    def next_bits(self, often):
        for bit in range(self.count['B']):
            if self.rng.random() < often:
                self.record('N', bit, self.without(self.has_claim))

    def next_readings(self, often):
        for reading in range(self.count['R'] if self.count['K'] else 0):
            if self.rng.random() < often:
                self.record('M', reading, self.some('K'))

    def as_at_start(self, bit):
        """A formula that is true while the bit is as it was at the start. Every bit has one that is its own."""
        own = self.atoms_of.index((BIT, bit))
        return own if self.starts[bit] else self.formula(NOT, own)

    def invariant(self, tame):
        """A tame one is true as often as not because of how it is made, or at least at the start."""
        fit = [k for k, found in enumerate(self.has_question) if not found]
        formula = self.rng.choice(fit[-4:])                        # late ones have more to say
        if tame and self.count['L'] <= MOST['L'] - 2:
            first = self.rng.choice(fit)
            if self.starts and self.rng.randrange(2):
                first = self.as_at_start(self.rng.randrange(len(self.starts)))
            formula = self.formula(OR, first, self.rng.choice([formula, formula, 0]))
        self.record('V', formula)

    def end(self, bounds):
        self.record('H', self.rng.choice(bounds))
        self.record('E')
        return self.data


def add_state(draft, bits, symbols, arities, readings, inputs):
    for _ in range(bits):
        draft.bit()
    for _ in range(symbols):
        draft.symbol(draft.rng.choice(arities))
    for _ in range(readings):
        draft.start()
    for _ in range(inputs):
        draft.record('I')
    for reading in range(readings):
        draft.term(READING, reading)
    for number in range(inputs):
        draft.term(INPUT, number)


def add_terms(draft, most):
    for _ in range(most if draft.count['F'] else 0):
        if draft.has_room('T'):
            draft.applied(draft.some('F'))


def add_asked(draft, questions, claims):
    for _ in range(questions if draft.count['T'] else 0):
        draft.question()
    for _ in range(claims if draft.count['T'] else 0):
        draft.claim()
    draft.atoms()


def mixed_sheet(rng):
    """Some of everything."""
    draft = Draft(rng)
    few = rng.randrange(2)                                         # then terms are alike, and more equalities follow
    add_state(draft, rng.randrange(4), rng.randrange(3 if few else 7), [0, 1, 1, 2] if few else [0, 1, 2, 3],
              rng.randrange(3 if few else 5), rng.randrange(2 if few else 4))
    add_terms(draft, rng.randrange(10))
    add_asked(draft, rng.randrange(4), rng.randrange(4))
    draft.combined(rng.randrange(10))
    for _ in range(rng.randrange(8) if draft.count['T'] else 0):
        draft.choice()
    draft.next_bits(0.5)
    draft.next_readings(0.6)
    draft.invariant(rng.randrange(4))
    return draft.end(range(HIGHEST + 1))


def counting_sheet(rng):
    """Many bits that change, few terms: many rows, and merges into all of them."""
    draft = Draft(rng)
    bits = rng.randrange(3, 8)
    add_state(draft, bits, rng.randrange(1, 4), [0, 1], rng.randrange(3), rng.randrange(3))
    add_terms(draft, rng.randrange(5))
    add_asked(draft, rng.randrange(1, 3), rng.randrange(3))
    draft.combined(rng.randrange(6, 30))
    for _ in range(rng.randrange(6) if draft.count['T'] else 0):
        draft.choice()
    draft.next_bits(0.9)
    draft.next_readings(0.5)
    draft.invariant(True)
    return draft.end([0, 0, 1, 1, 2])


def remembering_sheet(rng):
    """Readings become inputs and terms over them, and questions are about readings: conditions stay in rows, decide
    later questions, and have to follow where rows merge."""
    draft = Draft(rng)
    readings, inputs = rng.randrange(1, 4), rng.randrange(1, 3)
    add_state(draft, rng.randrange(3), rng.randrange(1, 4), [0, 1, 1, 2], readings, inputs)
    add_terms(draft, rng.randrange(6))
    low = [term for term, height in enumerate(draft.height) if height <= 1]
    for _ in range(rng.randrange(1, 4)):
        draft.record('Q', rng.choice(low), rng.choice(low))
    for _ in range(rng.randrange(3)):
        draft.claim()
    draft.atoms()
    draft.combined(rng.randrange(8))
    for term in rng.sample(low, rng.randrange(1, len(low) + 1)):
        draft.record('K', TAKE, term)
    for _ in range(rng.randrange(4)):
        draft.choice()
    draft.next_bits(0.5)
    draft.next_readings(0.8)
    draft.invariant(rng.randrange(4))
    return draft.end([0, 1, 1, 2])


def asking_sheet(rng):
    """Readings that pass on what was put in, and many questions about them: rows with many conditions."""
    draft = Draft(rng)
    readings = rng.randrange(3, MOST['R'] + 1)
    add_state(draft, rng.randrange(3), rng.randrange(3), [0, 1, 2], readings, rng.randrange(1, 4))
    low = draft.count['T']
    add_terms(draft, rng.randrange(3))
    for _ in range(rng.choice([3, 4, 5, 6])):
        draft.record('Q', rng.randrange(low), rng.choice([rng.randrange(low), draft.some('T')]))
    for _ in range(rng.randrange(3)):
        draft.claim()
    draft.atoms()
    draft.combined(rng.randrange(6))
    for reading in range(readings):
        draft.record('K', TAKE, rng.choice([(reading + 1) % readings, reading, rng.randrange(readings, low)]))
        draft.record('M', reading, reading)
    draft.next_bits(0.5)
    draft.invariant(True)
    return draft.end([0, 1, 1, 2])


def passing_sheet(rng):
    """Inputs that go from reading to reading, each compared with most of the others, some of them again later: more
    than 16 conditions, repeats among them."""
    draft = Draft(rng)
    last = MOST['R'] - 1
    add_state(draft, 0, 1, [0], MOST['R'], rng.randrange(1, 3))
    constant = draft.term(APPLIED, 0)
    asked = [[reading, MOST['R']] for reading in range(rng.choice([3, 5, 5, 5]))]
    again = rng.choice([[last, last - 1], [2, 1], [1, 0], [2, 0], [constant, MOST['R']]])
    asked.insert(rng.randrange(len(asked) + 1), again)
    for sides in asked:
        draft.record('Q', *(sides if rng.randrange(3) else reversed(sides)))
    draft.claim()
    draft.atoms()
    for reading in range(MOST['R']):
        draft.record('K', TAKE, MOST['R'] if reading == 0 else reading - 1)
        draft.record('M', reading, reading)
    draft.invariant(True)
    return draft.end([0, 1])


def equating_sheet(rng):
    """Many questions about terms of one or two symbols over few names: equalities follow from one another."""
    draft = Draft(rng)
    readings = rng.randrange(1, 4)
    add_state(draft, 1, rng.randrange(1, 3), [1, 2, 3], readings, rng.randrange(2))
    while draft.count['T'] < rng.randrange(10, 25):
        add_terms(draft, 1)
    for _ in range(rng.randrange(3, MOST['Q'] + 1)):
        draft.question()
    for _ in range(rng.randrange(MOST['C'] + 1)):
        draft.claim()
    draft.atoms()
    draft.combined(rng.randrange(6))
    for _ in range(3):
        draft.choice()
    draft.next_bits(0.7)
    draft.next_readings(0.7)
    draft.invariant(True)
    return draft.end([1, 2, 3, 4])


def naming_sheet(rng):
    """Readings that hold trees of inputs from several steps, and pass them on: rows with nearly all names, or all."""
    draft = Draft(rng)
    readings, inputs = range(MOST['R']), range(MOST['R'], MOST['R'] + MOST['I'])
    add_state(draft, rng.randrange(2), 1, [3], MOST['R'], MOST['I'])

    def tree(*below):
        return draft.term(APPLIED, 0, below)

    fresh = [tree(*rng.sample(inputs, 3)) for _ in range(2)]
    fresh += [tree(*rng.sample(inputs, 2), rng.choice(fresh))]
    mixed = [tree(*rng.sample(readings, 3)) for _ in range(3)]
    mixed += [tree(rng.choice(readings), rng.choice(inputs), rng.choice(inputs)) for _ in range(3)]
    mixed += [tree(rng.choice(readings), rng.choice(readings), rng.choice(fresh)) for _ in range(3)]
    for _ in range(rng.randrange(3)):
        draft.record('Q', rng.choice([*readings, *fresh, *mixed]), rng.choice([*readings, *inputs]))
    if not rng.randrange(3):
        draft.claim()
    draft.atoms()
    for reading in readings:
        passed = (reading + 1) % MOST['R']
        draft.record('K', TAKE, rng.choice([rng.choice(fresh), rng.choice(mixed), rng.choice(mixed), passed, passed]))
        draft.record('M', reading, reading)
    draft.next_bits(0.5)
    draft.invariant(True)
    return draft.end([2, 3, 4, 4, 4, 4])


def full_sheet(rng):
    """At every limit of the format, or near it."""
    draft = Draft(rng)
    add_state(draft, MOST['B'], MOST['F'], [0, 1, 2, 3], MOST['R'], MOST['I'])
    while draft.has_room('T'):
        add_terms(draft, 1)
    add_asked(draft, MOST['Q'], MOST['C'])
    draft.combined(MOST['L'])
    while draft.has_room('K'):
        draft.choice()
    draft.next_bits(0.3)
    draft.next_readings(0.7)
    draft.invariant(True)
    return draft.end([0, 1, 1])


def add_layer(draft, below, width, symbol=0):
    """Terms over those below, each of which is used about equally often."""
    start, used, arity = draft.count['T'], [], draft.arity[symbol]
    while len(used) < arity * width:
        used += draft.rng.sample(below, len(below))
    for k in range(width):
        draft.term(APPLIED, symbol, used[arity * k:arity * k + arity])
    return list(range(start, draft.count['T']))


def layered_sheet(rng, inputs, widths, asked, bounds):
    """Layers of terms, the last of them as next readings: many cuts. The questions are about terms of `asked`."""
    draft = Draft(rng)
    draft.symbol(3)
    for reading in range(MOST['R']):
        draft.record('R', START_VALUE, reading)
        draft.term(READING, reading)
    for number in range(inputs):
        draft.record('I')
        draft.term(INPUT, number)
    layer = list(range(draft.count['T']))
    for width in widths:
        layer = add_layer(draft, layer, width)
    for _ in range(rng.randrange(4)):
        draft.record('Q', *rng.sample(range(draft.count['T'])[asked], 2))
    for _ in range(rng.randrange(MOST['C'] + 1)):
        draft.claim()
    draft.atoms()
    for reading, term in enumerate(layer[:MOST['R']]):
        draft.record('K', TAKE, term)
        draft.record('M', reading, reading)
    draft.record('V', 0)
    return draft.end(bounds)


def tree_sheet(rng):
    """One high term, and questions about the inputs that keep their names standing: names may be wanting."""
    asked = slice(MOST['R'], MOST['R'] + MOST['I'])
    return layered_sheet(rng, MOST['I'], (rng.randrange(22, 28), 9, 3, 1), asked, [0, 0, 1])


def shared_sheet(rng):
    """High terms that share most of their subterms, with questions about such terms too: terms may be wanting."""
    widths = rng.randrange(12, 15), 14, 14, 12
    return layered_sheet(rng, rng.choice([0, MOST['I']]), widths, slice(-6, None), [0, 0, 1])


def growing_sheet(rng):
    """Readings over three inputs each: rows have many names, and inputs or cuts may want one more."""
    draft = Draft(rng)
    readings = rng.randrange(2, MOST['R'] + 1)
    for arity in (3, 2, 0):
        draft.symbol(arity)
    for reading in range(readings):
        draft.record('R', START_VALUE, rng.randrange(8))
        draft.term(READING, reading)
    inputs = [draft.term(INPUT, draft.record('I')) for _ in range(rng.randrange(1, MOST['I'] + 1))]
    for reading in range(readings):
        draft.term(APPLIED, 0, [rng.choice([reading] + inputs), rng.choice(inputs), draft.some('T')])
    add_terms(draft, rng.randrange(4))
    for _ in range(rng.randrange(3)):
        draft.question()
    for _ in range(rng.randrange(3)):
        draft.claim()
    draft.atoms()
    draft.combined(rng.randrange(4))
    for reading in range(readings):
        draft.record('K', TAKE, readings + len(inputs) + reading)
    for _ in range(rng.randrange(4)):
        draft.choice()
    draft.next_readings(0.9)
    draft.invariant(True)
    return draft.end([0, 1, 2, 3, 4, 4])


def records_of(data):
    """Of a lawful sheet."""
    records, at = [], 0
    while at < len(data):
        end = at + 1 + LENGTH[chr(data[at])]
        records.append(data[at:end])
        at = end
    return records


def with_records_turned(rng, data):
    """A record is left out, comes again or far too often, or goes elsewhere, or bytes follow the end."""
    records, way = records_of(data), rng.randrange(5)
    place = rng.randrange(len(records) - 1)
    if way == 0:
        del records[place]
    elif way == 1:
        records.insert(rng.randrange(place + 1, len(records)), rng.choice(records[max(0, len(records) - 12):-1]))
    elif way == 2:
        records[place:place] = [records[place]] * rng.choice([15, 31, 63, 64])
    elif way == 3:
        records.insert(rng.randrange(len(records)), records.pop(place))
    else:
        records.append(rng.choice(records))
    return b''.join(records)


def with_bytes_turned(rng, data):
    """A byte or two changed, left out or added, or the end left out."""
    data = bytearray(data)
    for _ in range(rng.randrange(1, 3)):
        place, way = rng.randrange(len(data) + 1), rng.randrange(4)
        if way == 0:
            data[place:place + 1] = [rng.choice([rng.randrange(256), rng.randrange(9), *b'BFRITQCLKNMVHE'])]
        elif way == 1:
            del data[place:place + 1]
        elif way == 2:
            data.insert(place, rng.randrange(9))
        else:
            del data[place:]
    return bytes(data)


def turned(rng, data):
    """Mostly no sheet."""
    return rng.choice([with_records_turned, with_bytes_turned])(rng, data)


KINDS = {mixed_sheet: 30, counting_sheet: 20, remembering_sheet: 25, growing_sheet: 8, asking_sheet: 4, naming_sheet: 4,
         passing_sheet: 1, equating_sheet: 2, tree_sheet: 2, shared_sheet: 2, full_sheet: 1}
KINDS_BY_HAND = {mixed_sheet: 20, counting_sheet: 10, remembering_sheet: 25, growing_sheet: 10, asking_sheet: 25,
                 passing_sheet: 15, equating_sheet: 15, naming_sheet: 35, tree_sheet: 5, shared_sheet: 5, full_sheet: 5}


def random_sheet(rng, kinds):
    """A lawful sheet; the kinds come as often as their numbers say."""
    return rng.choices(list(kinds), list(kinds.values()))[0](rng)


def random_bytes(rng, kinds):
    """Mostly a lawful sheet."""
    data = random_sheet(rng, kinds)
    return data if rng.randrange(12) else turned(rng, data)
