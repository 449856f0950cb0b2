"""Random run files and conditions."""
from reader import SheetFault, read
from terms import term_text

BAD_LINES = [b'listed', b'listed 0', b'affine 4294967296', b'entry 32 0', b'entry 0', b'entry 0 1 2 3 4 5',
             b'curve 0 1 2 3 65536', b'curve 0 1 2 3', b'curve 32 0 0 0 99999999999', b'start 0', b'steps 1 2',
             b'steps x', b'step 1', b'inputs -1']


def some_values(rng, count):
    few = rng.randrange(1, 4)
    return [rng.choice([rng.randrange(few), rng.randrange(few), rng.randrange(2 ** 32)]) for _ in range(count)]


def plant_lines(rng, symbols):
    if rng.randrange(2):
        yield f'listed {rng.randrange(3)}'
        for _ in range(rng.randrange(8)):
            values = ' '.join(map(str, some_values(rng, rng.randrange(4))))
            yield f'entry {rng.randrange(symbols)} {some_values(rng, 1)[0]} {values}'
    else:
        yield f'affine {rng.choice([0, 1, 2, 3, 7, 2 ** 32 - 1, rng.randrange(1, 2 ** 32)])}'
        for _ in range(rng.randrange(4)):
            numbers = ' '.join(str(rng.choice([0, 1, rng.randrange(2 ** 16)])) for _ in range(4))
            yield f'curve {rng.randrange(symbols)} {numbers}'


def random_run(rng, data):
    """A run file for the sheet in the bytes, now and then with a wrong count or line."""
    try:
        sheet = read(data)
        inputs, symbols = sheet.inputs, max(1, len(sheet.arity))
    except SheetFault:
        inputs, symbols = 1, 3
    steps = rng.choice([0, 1, 2, 5, 30, 10001 if not rng.randrange(10) else 3])
    off = 0 if rng.randrange(12) else rng.choice([-1, 1])
    given = some_values(rng, 0 if steps > 10000 else max(0, steps * inputs + off))
    plant, *lines = plant_lines(rng, symbols)
    lines += ['start ' + ' '.join(map(str, some_values(rng, 8 if rng.randrange(15) else rng.randrange(10))))]
    lines += [f'steps {steps}', 'inputs ' + ' '.join(map(str, given))]
    if rng.randrange(4) == 0:
        rng.shuffle(lines)
    lines = [line.encode() for line in [plant] + lines]
    if not rng.randrange(8):
        lines.insert(rng.randrange(len(lines) + 1), rng.choice(BAD_LINES))
    if not rng.randrange(20):
        del lines[rng.randrange(len(lines))]
    return b'\n'.join(lines) + rng.choice([b'', b'\n', b' # end', b'\r\n'])


def random_term(rng, arity, high):
    symbols = [f for f, count in enumerate(arity) if count == 0 or high]
    if not symbols or not rng.randrange(3):
        return rng.randrange(rng.choice([2, 4, 32]))
    symbol = rng.choice(symbols)
    return symbol, *[random_term(rng, arity, high - 1) for _ in range(arity[symbol])]


def tower(rng, symbol, arity):
    """Near the greatest depth that is read, or past it."""
    text = 'x0'
    for _ in range(rng.choice([510, 511, 512, 513, 600])):
        text = f's{symbol}({",".join([text] + ["x0"] * (arity - 1))})'
    return text


def random_conditions(rng):
    arity = [rng.randrange(4) for _ in range(rng.randrange(1, 5))]
    high, lines = rng.randrange(4), []
    for _ in range(rng.choice([0, 1, 3, 8, 20, 150])):
        left, right = [term_text(random_term(rng, arity, high)) for _ in range(2)]
        lines.append(f'{left} {rng.choice("==#")} {right}')
    if not rng.randrange(20):
        lines.append(tower(rng, 200, rng.randrange(1, 4)) + ' = x0')
    text = '\n'.join(lines) + rng.choice(['', '\n'])
    if text and not rng.randrange(8):
        place = rng.randrange(len(text))
        odd = rng.choice([' ', ',', 'x32', 's256', 's0(x0,x0)', '(', ')', '\n', '0', '', 'é'])
        text = text[:place] + odd + text[place + rng.randrange(2):]
    return text.encode()
