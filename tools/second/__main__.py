"""A second program for the whole checker, plain and slow, written from docs/ alone.

    python3 tools/second check SHEET..             prints what `checker` should print, sheet after sheet
    python3 tools/second session L SHEET SCRIPT    `session` with the row limit L; of joins only their bound
    python3 tools/second branches SHEET..          `branches`
    python3 tools/second bench SHEET RUNFILE       `bench_run`
    python3 tools/second decide CONDITIONS..       `decide`
    python3 tools/second sheet SEED                writes a random sheet
"""
import random
import sys

sys.dont_write_bytecode = True
from bench import bench_text  # noqa: E402
from branches import branches_text  # noqa: E402
from decide import decide_text  # noqa: E402
from drafts import KINDS, random_sheet  # noqa: E402
from session import check_text, session_text  # noqa: E402

DEEP = 10000                                                       # calls; a term of `decide` may be 512 high
EACH = dict(check=check_text, branches=branches_text, decide=decide_text)


def contents(name):
    with open(name, 'rb') as f:
        return f.read()


def usage():
    print(__doc__, file=sys.stderr, end='')
    return 2


def main(words):
    sys.setrecursionlimit(DEEP)
    try:
        if len(words) > 1 and words[0] in EACH:
            for name in words[1:]:
                sys.stdout.write(EACH[words[0]](contents(name)))
        elif len(words) == 4 and words[0] == 'session' and words[1].isdecimal():
            sys.stdout.write(session_text(contents(words[2]), int(words[1]), contents(words[3])))
        elif len(words) == 3 and words[0] == 'bench':
            sys.stdout.write(bench_text(contents(words[1]), contents(words[2])))
        elif len(words) == 2 and words[0] == 'sheet' and words[1].isdecimal():
            sys.stdout.buffer.write(random_sheet(random.Random(int(words[1])), KINDS))
        else:
            return usage()
        return 0
    except OSError as error:
        print(f'second: {error}', file=sys.stderr)
        return 2


if __name__ == '__main__':
    sys.exit(main(sys.argv[1:]))
