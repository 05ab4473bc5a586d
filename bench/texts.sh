#!/usr/bin/env bash
# Times the built program on long texts of several kinds: how its time grows with the length, and how much of it is
# spent behind the tokens. Ends with 1 where a text takes 2.3 times as long as one of half its length, or more than
# five times as long as its tokens alone. It is no part of the gate.
#
#     bench/texts.sh [PROGRAM]      the program is crates/og/out/og where none is named
top=$(cd "$(dirname "${BASH_SOURCE[0]}")/.." && pwd) || exit 1
exec python3 - "${1:-$top/crates/og/out/og}" <<'PY'
import os, sys, tempfile, time

PROGRAM = os.path.abspath(sys.argv[1])
SIZES = [262_144, 524_288, 1_048_575]
RUNS = 25


# A declaration that breaks a rule, so that what comes behind the reading ends there.
BROKEN = 'type a = b;'


def repeated(front, piece, end):
    """As many pieces as fit, between the front and the end, behind the broken declaration, and blanks up to the length."""
    front = BROKEN + front

    def make(length):
        count = (length - len(front) - len(end)) // len(piece)
        return (front + piece * count + end).ljust(length, ' ')
    return make


KINDS = {
    'declarations': repeated('', 'fn f(x : number) : number = x + 1;\n', ''),
    'a long table': repeated('fn f(x : 0..9) : number = table (x : 0..9) {\n', '(7) -> 12;\n', '};\n'),
    'deep brackets': repeated('', 'fn f() : bool = ' + '(' * 63 + 'true' + ')' * 63 + ';\n', ''),
    'one long line': repeated('fn f() : number = 1', ' + 1', ';'),
    'a long comment': repeated('//', 'x', ''),
}


def run(path, wanted):
    """How long one run on the text takes, in seconds, and its memory in MiB."""
    read, write = os.pipe()
    start = time.perf_counter()
    child = os.posix_spawn(PROGRAM, [PROGRAM, 'check', path, path], os.environ,
                           file_actions=[(os.POSIX_SPAWN_DUP2, write, 1)])
    _, _, usage = os.wait4(child, 0)
    seconds = time.perf_counter() - start
    os.close(write)
    said = os.read(read, 200).decode()
    os.close(read)
    if said != wanted:
        sys.exit('%r where %r was wanted' % (said, wanted))
    return seconds, usage.ru_maxrss / 1024


def measure(make):
    """For each size, of the whole text and of its tokens alone: the least time of many runs, and the most memory.

    All are run in turn, so that a machine that is slow for a while is so for all of them."""
    with tempfile.TemporaryDirectory() as room:
        cases = []
        for size in SIZES:
            text = make(size)
            # The same tokens behind one at which no declaration begins: nothing is read behind the tokens.
            for front, wanted in (('', 'Unknown at 1:10'), (';', 'Syntax at 1:1')):
                path = os.path.join(room, '%d%s' % (size, front))
                with open(path, 'w') as file:
                    file.write(front + text)
                cases.append((path, 'refused game %s\n' % wanted))
        rounds = [[run(path, wanted) for path, wanted in cases] for _ in range(RUNS)]
    best = [(min(r[k][0] for r in rounds), max(r[k][1] for r in rounds)) for k in range(len(cases))]
    return list(zip(SIZES, best[::2], best[1::2]))


print('| Text | bytes | seconds | MB a second | MiB | its tokens alone | times those | times half the text |')
print('|---|---|---|---|---|---|---|---|')
good = True
for kind, make in KINDS.items():
    before = None
    for size, (whole, memory), (tokens, _) in measure(make):
        growth = whole / before if before else None
        good = good and whole <= 5 * tokens and (growth is None or growth < 2.3)
        print('| %s | %d | %.4f | %.1f | %.0f | %.4f | %.2f | %s |' % (
            kind, size, whole, size / whole / 1e6, memory, tokens, whole / tokens,
            '%.2f' % growth if growth else ''))
        before = whole
print('each as it should be' if good else 'not each as it should be')
sys.exit(0 if good else 1)
PY
