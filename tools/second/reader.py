"""Sheets from bytes, by docs/SHEET.md: the first fault, or the records by what they are for."""
LENGTH = dict(B=1, F=1, R=2, I=0, T=5, Q=2, C=2, L=3, K=4, N=2, M=2, V=1, H=1, E=0)
MOST = dict(B=16, F=32, R=6, I=4, T=64, Q=6, C=4, L=64, K=64)

START_VALUE, START_CONSTANT = range(2)                             # the ways of R
READING, INPUT, APPLIED = range(3)                                 # of T
TRUE, BIT, QUESTION, CLAIM, NOT, AND, OR = range(7)                # of L
TAKE, TEST = range(2)                                              # of K

HIGHEST = 4                                                        # a term of a sheet


class SheetFault(Exception):
    """The number of a fault, and the number and first byte of its record."""

    def __init__(self, number, record, byte):
        super().__init__(f'sheet fault {number} record {record} byte {byte}')


class Wrong(Exception):
    """A body byte is against the table or the rules."""


def need(test):
    if not test:
        raise Wrong


class Sheet:
    """What the records so far say; the last part is what a later record must know of them."""

    def __init__(self):
        self.records = 0
        self.bodies = {letter: [] for letter in MOST}
        self.next_bit, self.next_reading = {}, {}
        self.invariant = self.bound = None
        self.height, self.has_input = [], []                       # of terms
        self.has_question, self.has_claim = [], []                 # of formulas

    @property
    def start_bits(self):
        return [start == 1 for [start] in self.bodies['B']]

    @property
    def arity(self):
        return [arity for [arity] in self.bodies['F']]

    @property
    def starts(self):
        return self.bodies['R']

    @property
    def inputs(self):
        return len(self.bodies['I'])

    @property
    def terms(self):
        return self.bodies['T']

    @property
    def questions(self):
        return self.bodies['Q']

    @property
    def claims(self):
        return self.bodies['C']

    @property
    def formulas(self):
        return self.bodies['L']

    @property
    def choices(self):
        return self.bodies['K']

    def count(self, letter):
        return len(self.bodies[letter])

    # What each body has to keep

    def test_b(self, start):
        need(start <= 1)

    def test_f(self, arity):
        need(arity <= 3)

    def test_r(self, way, number):
        need(way <= 1)
        if way == START_VALUE:
            need(number <= 7)
        else:
            need(number < self.count('F') and self.arity[number] == 0)

    def test_i(self):
        pass

    def test_t(self, way, number, *arguments):
        need(way <= 2)
        need(number < self.count('RIF'[way]))
        uses = self.arity[number] if way == APPLIED else 0
        used, unused = arguments[:uses], arguments[uses:]
        need(all(term < self.count('T') for term in used))
        need(not any(unused))
        height = 1 + max(self.height[term] for term in used) if used else 0
        need(height <= HIGHEST)
        self.height.append(height)
        self.has_input.append(way == INPUT or any(self.has_input[term] for term in used))

    def test_q(self, left, right):
        need(max(left, right) < self.count('T'))

    def test_c(self, left, right):
        need(max(left, right) < self.count('T'))
        need(not self.has_input[left] and not self.has_input[right])

    def test_l(self, way, first, second):
        need(way <= 6)
        if way == TRUE:
            need(first == 0)
        else:
            need(first < self.count({BIT: 'B', QUESTION: 'Q', CLAIM: 'C'}.get(way, 'L')))
        need(second < self.count('L') if way in (AND, OR) else second == 0)
        below = {NOT: [first], AND: [first, second], OR: [first, second]}.get(way, [])
        self.has_question.append(way == QUESTION or any(self.has_question[k] for k in below))
        self.has_claim.append(way == CLAIM or any(self.has_claim[k] for k in below))

    def test_k(self, way, first, yes, no):
        need(way <= 1)
        if way == TAKE:
            need(first < self.count('T') and yes == 0 and no == 0)
        else:
            need(first < self.count('L') and not self.has_claim[first])
            need(max(yes, no) < self.count('K'))

    def test_n(self, bit, formula):
        need(bit < self.count('B'))
        need(formula < self.count('L') and not self.has_claim[formula])

    def test_m(self, reading, choice):
        need(reading < self.count('R') and choice < self.count('K'))

    def test_v(self, formula):
        need(formula < self.count('L') and not self.has_question[formula])

    def test_h(self, bound):
        need(bound <= HIGHEST)

    def is_repeated(self, letter, body):
        return (letter == 'N' and body[0] in self.next_bit or letter == 'M' and body[0] in self.next_reading
                or letter == 'V' and self.invariant is not None or letter == 'H' and self.bound is not None)

    def add(self, letter, body):
        self.records += 1
        if letter in MOST:
            self.bodies[letter].append(body)
        elif letter == 'N':
            self.next_bit[body[0]] = body[1]
        elif letter == 'M':
            self.next_reading[body[0]] = body[1]
        elif letter == 'V':
            self.invariant = body[0]
        elif letter == 'H':
            self.bound = body[0]


def fault_of_record(sheet, data, at):
    """The number of the first fault of the record that begins there, or None; a body is tested by the rules once."""
    if at == len(data):
        return 1
    letter = chr(data[at])
    if letter not in LENGTH:
        return 2
    end = at + 1 + LENGTH[letter]
    if end > len(data):
        return 1
    if letter in MOST and sheet.count(letter) == MOST[letter]:
        return 4
    body = list(data[at + 1:end])
    if letter == 'E':
        if sheet.invariant is None or sheet.bound is None:
            return 6
        return 7 if end < len(data) else None
    try:
        getattr(sheet, 'test_' + letter.lower())(*body)
    except Wrong:
        return 3
    return 5 if sheet.is_repeated(letter, body) else None


def read(data):
    """The sheet, or its first fault."""
    sheet, at = Sheet(), 0
    while True:
        fault = fault_of_record(sheet, data, at)
        if fault:
            raise SheetFault(fault, sheet.records, at)
        letter = chr(data[at])
        end = at + 1 + LENGTH[letter]
        sheet.add(letter, list(data[at + 1:end]))
        if letter == 'E':
            return sheet
        at = end


def outcome(data):
    """The last line of a listing."""
    try:
        return f'sheet ok records {read(data).records}'
    except SheetFault as fault:
        return str(fault)
