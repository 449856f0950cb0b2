"""Words and numbers of the lines of run files and scripts, by docs/RUNFILE.md."""


class Unreadable(Exception):
    """What is wrong with a line."""


def words_of(line):
    """Of bytes; the words before a comment."""
    words = line.split(b'#')[0].replace(b'\t', b' ').replace(b'\r', b' ').split(b' ')
    return [word for word in words if word]


def number_of(word, most):
    if not word.isdigit():                                         # of bytes: the digits 0 to 9 alone
        raise Unreadable('not a decimal number')
    digits = word.lstrip(b'0') or b'0'
    if len(digits) > len(str(most)) or int(digits) > most:
        raise Unreadable(f'a number above {most}')
    return int(digits)
