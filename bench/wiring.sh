#!/usr/bin/env bash
# Times the built program on long programs that keep every rule of the wiring: how the time grows with the length, where
# names are looked up, calls are counted as their bodies, and a block is walked in two passes. Ends with 1 where a text takes
# 2.3 times as long as one of half its length, or more. It is no part of the gate.
#
#     bench/wiring.sh [PROGRAM]     the program is crates/og/out/og where none is named
top=$(cd "$(dirname "${BASH_SOURCE[0]}")/.." && pwd) || exit 1
exec python3 - "${1:-$top/crates/og/out/og}" <<'PY'
import itertools, os, sys, tempfile, time

PROGRAM = os.path.abspath(sys.argv[1])
SIZE = 1_048_576
LINES = 4_000
RUNS = 15
WANTED = 'refused game NotBuilt at 1:1\n', 3  # The wiring accepts it, and it is no small game.
EMPTY_MAIN = 'game main = block { :---: :---: };\n'


def filled(piece):
    """As many pieces, numbered from 0, as go before an empty `main` within the length."""
    def make(length):
        pieces, left = [], length - len(EMPTY_MAIN)
        for number in itertools.count():
            text = piece(number)
            if len(text) > left:
                return ''.join(pieces) + EMPTY_MAIN
            pieces.append(text)
            left -= len(text)
    return make


def declaration(i):
    """An enum, a tuple of it, and a function of an earlier enum."""
    return (f'type T{i:06} = {{ A{i:06}, B{i:06}, C{i:06} }};\n'
            f'type P{i:06} = (T{i:06}, 0..15);\n'
            f'fn f{i:06}(x : T{i // 2:06}, y : P{i:06}) : number ='
            f' if x == A{i // 2:06} then y.1 + 1 else 2 * y.1 end;\n')


def call(i):
    """The first function of forty calls none. Each other calls the one before it, and two first ones far before.

    So none is higher than 42 or has more than 355 nodes, calls replaced by bodies."""
    if i % 40 == 0:
        return f'fn f{i:06}(x : number) : number = x / 3 + 1;\n'
    first, second = i // 2 // 40 * 40, i // 3 // 40 * 40
    return f'fn f{i:06}(x : number) : number = f{i - 1:06}(x) + f{first:06}(x) - f{second:06}(x);\n'


def long_names(i):
    """An enum and a function of an earlier one; all names begin with the same 200 characters."""
    def name(number):
        return 'long' * 50 + f'{number:08}'
    own, other = 5 * i, 5 * (i // 2)
    return (f'type {name(own)} = {{ {name(own + 1)}, {name(own + 2)} }};\n'
            f'fn {name(own + 3)}({name(own + 4)} : {name(other)}) : bool = {name(own + 4)} == {name(other + 1)};\n')


def block(lines):
    """One block of lines in pairs, each one flat line: a decision that sees earlier ones, and the line that pays it.

    That line is handed what earlier and later decisions choose, and what goes back from the next such line."""
    pairs, text = lines // 2, ['game main = block {\n:---:\n']
    for k in range(pairs):
        # The first decision sees nothing.
        seen = [k - 1, k // 2, k // 3, k // 4, k // 5, k // 6, k // 7, 0][:8 if k else 0]
        handed = [f'chose{j:06}' for j in (0, k // 2, k, (k + pairs) // 2, pairs - 1)]
        handed.append(f'paid{k + 1:06}' if k + 1 < pairs else f'chose{k:06}')
        text.append(
            'inputs : ' + ', '.join(f'chose{j:06}' for j in seen) + ' ;\n'
            'operation : dependentDecision "player" [' + ', '.join('0..1' for _ in seen) + '] 0..1 ;\n'
            f'outputs : chose{k:06} ;\nreturns : paid{k:06} ;\n'
            f'feedback : paid{k:06} ;\n'
            'operation : backwardFunction (u : number, v : number, w : number, x : number, y : number, z : number)'
            ' -> (u + v * w - x / 2 + y - z / 3 : number) ;\n'
            'returns : ' + ', '.join(handed) + ' ;\n')
    text.append(':---:\n};\n')
    return ''.join(text)


# Each with how to make it, and what is handed to that for the whole and for the half.
KINDS = {
    'types and functions': (filled(declaration), SIZE),
    f'a block of {LINES:,} lines': (block, LINES),
    'functions that call earlier ones': (filled(call), SIZE),
    'names with one long front': (filled(long_names), SIZE),
}


def run(path):
    """How long one run on the text takes, in seconds."""
    read, write = os.pipe()
    start = time.perf_counter()
    child = os.posix_spawn(PROGRAM, [PROGRAM, 'check', path, '/dev/null'], os.environ,
                           file_actions=[(os.POSIX_SPAWN_DUP2, write, 1)])
    _, status, _ = os.wait4(child, 0)
    seconds = time.perf_counter() - start
    os.close(write)
    said = os.read(read, 200).decode(), os.waitstatus_to_exitcode(status)
    os.close(read)
    if said != WANTED:
        sys.exit('%r where %r was wanted' % (said, WANTED))
    return seconds


def measure(make, whole):
    """The bytes of the whole text, and the least time of many runs on half of it and on the whole, which are run in turn."""
    with tempfile.TemporaryDirectory() as room:
        paths = []
        for size in whole // 2, whole:
            paths.append(os.path.join(room, '%d.game' % size))
            with open(paths[-1], 'w') as file:
                file.write(make(size))
        rounds = [[run(path) for path in paths] for _ in range(RUNS)]
        return os.path.getsize(paths[1]), *(min(times) for times in zip(*rounds))


print('| Text | bytes | seconds for the half | seconds for the whole | times the half |')
print('|---|---|---|---|---|')
good = True
for kind, (make, size) in KINDS.items():
    length, half, whole = measure(make, size)
    good = good and whole < 2.3 * half
    print('| %s | %d | %.4f | %.4f | %.2f |' % (kind, length, half, whole, whole / half), flush=True)
print('each as it should be' if good else 'not each as it should be')
sys.exit(0 if good else 1)
PY
