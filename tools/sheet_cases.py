#!/usr/bin/env python3
"""The cases of sheets that the reader and a second one, tools/second/reader.py, are both run on.

Writes crates/reader_cases/stdin (a sheet to a line, in hexadecimal) and crates/reader_cases/stdout (what each
comes to). Run it after a change of the cases: tools/sheet_cases.py
"""
import os
import random
import sys

sys.dont_write_bytecode = True                                     # the import leaves nothing behind in tools/
from second.reader import MOST, outcome  # noqa: E402


def sheet(text):
    """Bytes from words such as `T2100` or `L5,12,0`: a letter and its body's numbers, digit by digit or after commas."""
    out = b''
    for w in text.split():
        numbers = w[1:].split(',') if ',' in w else list(w[1:])
        out += w[:1].encode() + bytes(int(x) for x in numbers if x)
    return out


HOPPER = ('F0 F1 B0 R00 R01 I T00000 T01000 T10000 T20000 T21000 Q23 C14 L100 L200 L601 L400 L300 L634 '
          'K0400 K0100 K1101 N02 M12 V5 H1 E')
# every letter and every way at least once, and a term of each height
FULL = ('B0 B1 F0 F1 F2 F3 R00 R07 R10 I I T00000 T10000 T20000 T21200 T22010 T23000 T21300 T21600 T21700 Q01 C02 C67 '
        'L000 L100 L200 L300 L400 L501 L612 L512 K0100 K0800 K1201 N02 N16 M02 M21 V3 H4 E')


def cases():
    yield b''
    for base in (HOPPER, FULL):
        words = base.split()
        yield sheet(base)
        for i, w in enumerate(words):
            before, after = sheet(' '.join(words[:i])), sheet(' '.join(words[i + 1:]))
            here = sheet(w)
            yield before + after                                   # left out
            yield before + here + here + after                     # twice
            yield before                                           # ends before the record
            for k in range(1, len(here)):
                yield before + here[:k]                            # ends inside it
                for v in range(0, 8):
                    yield before + here[:k] + bytes([v]) + here[k + 1:] + after
                for v in (16, 64, 255):
                    yield before + here[:k] + bytes([v]) + here[k + 1:] + after
            for letter in (b'A', b'b', b'\0'):
                yield before + letter + here[1:] + after
        for v in (0, 69, 255):
            yield sheet(base) + bytes([v])                         # bytes follow
    head = 'B0 F0 F1 R00 I T00000 T10000 L000 K0000 '
    lists = dict(B='B1', F='F3', R='R01', I='I', T='T00000', Q='Q00', C='C00', L='L000', K='K0000')
    for c, w in lists.items():
        have = head.split().count(w) if c in 'QC' else sum(1 for x in head.split() if x[0] == c)
        for extra in (MOST[c] - have - 1, MOST[c] - have, MOST[c] - have + 1):
            yield sheet(head + (w + ' ') * extra + 'V0 H0 E')
    yield sheet(head + 'B0 ' * 15 + 'B2 V0 H0 E')                  # one more than the most comes before a bad body
    yield sheet(head + 'B0 ' * 16 + 'B2 V0 H0 E')
    yield sheet('L000 ' + ' '.join(f'L5,{i},{i}' for i in range(63)) + ' V,63 H0 E')
    yield sheet('B0 R00 F1 L000 ' + ' '.join(f'T2,0,{i},0,0' if i else 'T00000' for i in range(6)) + ' V0 H0 E')
    for order in ('L000 V0 H0 E', 'H0 L000 V0 E', 'V0 L000 H0 E', 'L000 V0 E', 'L000 H0 E', 'E', 'H5', 'L000 V0 V0 H0 E',
                  'L000 H0 H1 V0 E', 'L000 B0 N00 N00 V0 H0 E', 'L000 B0 B0 N00 N10 V0 H0 E', 'L000 B0 N10 B0 V0 H0 E',
                  'R00 T00000 K0000 M00 M00 L000 V0 H0 E', 'R00 R01 T00000 K0000 M10 M00 L000 V0 H0 E'):
        yield sheet(order)
    rng = random.Random(20)
    for base in (sheet(HOPPER), sheet(FULL)):
        for _ in range(250):
            b = bytearray(base)
            for _ in range(rng.randrange(1, 4)):
                k = rng.randrange(len(b))
                what = rng.randrange(3)
                if what == 0:
                    b[k] = rng.choice([rng.randrange(256), rng.randrange(9)])
                elif what == 1:
                    del b[k]
                else:
                    b.insert(k, rng.randrange(9))
            yield bytes(b)
    for _ in range(100):
        words = (HOPPER if rng.random() < 0.5 else FULL).split()
        i, j = rng.randrange(len(words)), rng.randrange(len(words))
        words[i], words[j] = words[j], words[i]
        yield sheet(' '.join(words))


def main():
    top = os.path.join(os.path.dirname(os.path.abspath(__file__)), '..', 'crates', 'reader_cases')
    seen, lines, answers = set(), [], []
    for c in cases():
        if c not in seen:
            seen.add(c)
            lines.append(c.hex() or '-')
            answers.append(outcome(c))
    with open(os.path.join(top, 'stdin'), 'w') as f:
        f.write('\n'.join(lines) + '\n')
    with open(os.path.join(top, 'stdout'), 'w') as f:
        f.write('\n'.join(answers) + '\n')
    kinds = {}
    for a in answers:
        k = ' '.join(a.split()[:3]) if 'fault' in a else 'ok'
        kinds[k] = kinds.get(k, 0) + 1
    print(len(lines), 'cases:', ', '.join(f'{k} {v}' for k, v in sorted(kinds.items())))


if __name__ == '__main__':
    main()
