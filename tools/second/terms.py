"""Terms of bare symbols, and whether conditions between them can be true together.

A name is its number. Any other term is a tuple of its symbol and its arguments, so a constant is a tuple of one.
"""
import collections
import functools

NAMES = 32

Condition = collections.namedtuple('Condition', 'left right equal')


def is_name(term):
    return isinstance(term, int)


def arguments(term):
    return () if is_name(term) else term[1:]


@functools.lru_cache(maxsize=100000)
def height(term):
    return 1 + max(map(height, arguments(term))) if arguments(term) else 0


def with_subterms(terms):
    """The set of the terms and all below them."""
    found, due = set(), list(terms)
    while due:
        term = due.pop()
        if term not in found:
            found.add(term)
            due += arguments(term)
    return found


def names_in(terms):
    return {term for term in with_subterms(terms) if is_name(term)}


def sides(conditions):
    return [side for condition in conditions for side in (condition.left, condition.right)]


def changed(term, becomes):
    """The term with each subterm that is a key of `becomes` turned into what it becomes, from the top down."""
    if term in becomes:
        return becomes[term]
    return term if is_name(term) else (term[0], *[changed(below, becomes) for below in arguments(term)])


def with_changes(conditions, becomes):
    return [Condition(changed(left, becomes), changed(right, becomes), equal) for left, right, equal in conditions]


def classes(terms, equations):
    """The class of each of the terms and their subterms: equal terms, and terms of one symbol over equal arguments,
    have one."""
    class_of = {term: number for number, term in enumerate(with_subterms(terms))}

    def join(one, other):
        gone, stays = class_of[one], class_of[other]
        if gone == stays:
            return False
        for term in class_of:
            if class_of[term] == gone:
                class_of[term] = stays
        return True

    for left, right in equations:
        join(left, right)
    joined = True
    while joined:
        joined, alike = False, {}
        for term in class_of:
            if not is_name(term):
                key = term[0], *[class_of[below] for below in arguments(term)]
                joined = join(term, alike.setdefault(key, term)) or joined
    return class_of


def is_impossible(conditions):
    """Whether no interpretation makes all of them true: a # stands between two terms of one class."""
    equations = [(left, right) for left, right, equal in conditions if equal]
    class_of = classes(sides(conditions), equations)
    return any(not equal and class_of[left] == class_of[right] for left, right, equal in conditions)


def follows(conditions, condition):
    """Whether the condition is true wherever all the others are."""
    return is_impossible([*conditions, condition._replace(equal=not condition.equal)])


def term_text(term):
    if is_name(term):
        return f'x{term}'
    inside = ','.join(map(term_text, arguments(term)))
    return f's{term[0]}({inside})' if inside else f's{term[0]}'
