"""What `decide` prints, by docs/CLOSURE.md."""
import re

from rows import ROOM
from terms import NAMES, Condition, classes, is_impossible, sides

DEEPEST = 512
SYMBOLS = 256
NUMBER = re.compile(r'0|[1-9][0-9]{0,2}')


class Unread(Exception):
    """What is wrong with a line."""


class Full(Exception):
    """More than 512 different terms are met."""


class Reader:
    """Text that is read from its front, the terms met so far and the arity of each symbol in them."""

    def __init__(self, text):
        self.text, self.at, self.terms, self.arity = text, 0, set(), {}

    def passed(self, word):
        if not self.text.startswith(word, self.at):
            return False
        self.at += len(word)
        return True

    def number(self, most, problem):
        found = NUMBER.match(self.text, self.at)
        if not found or int(found[0]) > most:
            raise Unread(problem)
        self.at = found.end()
        return int(found[0])

    def met(self, term):
        self.terms.add(term)
        if len(self.terms) > ROOM:
            raise Full
        return term

    def arguments(self, depth):
        """Those in brackets, if there are brackets."""
        if not self.passed('('):
            return []
        if depth == DEEPEST:
            raise Full
        found = [self.term(depth + 1)]
        while not self.passed(')'):
            if len(found) == 3 or not self.passed(','):
                raise Unread('a comma or a closing bracket is expected')
            found.append(self.term(depth + 1))
        return found

    def term(self, depth=0):
        if self.passed('x'):
            return self.met(self.number(NAMES - 1, 'a name is x0 to x31'))
        if not self.passed('s'):
            raise Unread('a term is expected')
        symbol = self.number(SYMBOLS - 1, 'a symbol is s0 to s255')
        used = self.arguments(depth)
        if self.arity.setdefault(symbol, len(used)) != len(used):
            raise Unread('a symbol is used with two arities')
        return self.met((symbol, *used))

    def condition(self):
        left = self.term()
        equal = self.passed(' = ')
        if not equal and not self.passed(' # '):
            raise Unread("' = ' or ' # ' is expected")
        right = self.term()
        if not self.passed('\n'):
            raise Unread('the line should end here')
        return Condition(left, right, equal)


def decide_text(data):
    text = data.decode('latin-1')
    reader, conditions = Reader(text if text.endswith('\n') or not text else text + '\n'), []
    try:
        while reader.at < len(reader.text):
            conditions.append(reader.condition())
    except Unread as problem:
        return f'line {len(conditions) + 1}: {problem}\n'
    except Full:
        return 'full\n'
    if not is_impossible(conditions):
        return 'possible\n'
    class_of = classes(sides(conditions), [(left, right) for left, right, equal in conditions if equal])
    return f'impossible joins {len(class_of) - len(set(class_of.values()))}\n'
