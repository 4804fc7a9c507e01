#!/bin/sh
# Times the built program, outside the merge gate: `demo 100`, `demo 1000`, `check` of a source of 1 MiB, and a journal of 60 MiB
# as it is written by `run --journal` and read by `audit`. Prints for each the status, the best time of 3 passes in milliseconds, and the most
# memory in MB (resident).
# Build the program first, then run this at any place of the repository:
#     (cd crates/strobe && rt run -- demo 15) && sh bench/program.sh
# Another program can be named:  sh bench/program.sh PROGRAM
set -eu

top=$(cd "$(dirname "$0")/.." && pwd)
program=${1:-$top/crates/strobe/out/strobe}
scratch=$(mktemp -d)
trap 'rm -rf "$scratch"' EXIT

cat > "$scratch/rows.py" <<'END_OF_ROWS'
import os, sys, time

program = os.path.abspath(sys.argv[1])
os.chdir(sys.argv[2])

# 64 procedures, filled with assignments up to 1 MiB
parts = []
for n in range(64):
    head, line = "proc p%d() {\n  var x: int = 0;\n" % n, "  x = x + 1;\n"
    room = 1048576 // 64 - len(head) - 2
    parts.append(head + line * (room // len(line)) + "}\n")
with open("large", "w") as source:
    source.write("".join(parts))

# 8 threads that store ten-digit numbers in turn
with open("stores", "w") as source:
    source.write("shared { n: int; }\n")
    for name in "abcdefgh":
        source.write("thread %s { var i: int = 1000000000; while (i < 1000410000) { shared.n = i; i = i + 1; } }\n" % name)


def once(words, output):
    start = time.monotonic()
    child = os.fork()
    if child == 0:
        out = os.open(output, os.O_WRONLY | os.O_CREAT | os.O_TRUNC, 0o600)
        os.dup2(out, 1)
        os.execv(program, [program] + words)
    _, status, used = os.wait4(child, 0)
    return os.WEXITSTATUS(status), (time.monotonic() - start) * 1000, used.ru_maxrss / 1024


def row(name, words, output="written"):
    passes = [once(words, output) for _ in range(3)]
    print("%s: status %d, %.0f ms, %.0f MB" % (name, passes[0][0], min(p[1] for p in passes), max(p[2] for p in passes)))


row("demo 100", ["demo", "100"])
row("demo 1000", ["demo", "1000"])
row("check of %d bytes" % os.path.getsize("large"), ["check", "large"])
row("run --journal", ["run", "stores", "--events", "1048576", "--journal"], "journal")
row("audit of %d bytes" % os.path.getsize("journal"), ["audit", "stores", "journal"])
END_OF_ROWS
python3 "$scratch/rows.py" "$program" "$scratch"
