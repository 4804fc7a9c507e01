#!/usr/bin/env bash
# What the gate costs, crate by crate, outside the merge gate: the table of docs/PERFORMANCE.md, in processor seconds, user and system, with one job.
#
#     bash bench/cost.sh > TABLE               all crates of crates.txt, lowest first
#     bash bench/cost.sh CRATE.. > TABLE       these alone; those below them are proved first, and have no row
#
# It works in a clean clone of the last commit of this repository, so nothing is kept there at the start. Of each crate it prints a row once it is measured:
#   proof    `rt check`, after that of all below it;
#   tests    how many there are, and `rt test` less a second `rt test`, which proves nothing and only runs them: so the proof of the crate with its tests;
#   edits    how many there are, and `rt must-fail CRATE`. ANEW=--anew before the command hands that on, for a machine that keeps what an earlier run tried.
# The last row has the sums. What is not in it: the runs of tests and programs, and what the toolchain does for the whole repository.
# It stops at the first command that fails, with the end of what that printed. Run it on a machine that does nothing else; from nothing it takes hours.
unset KEEP
. "$(dirname "$0")/scratch.sh"
set -o pipefail
shopt -s inherit_errexit
TIMEFORMAT='%U %S'

clone=$scratch/clone
git clone -q "$top" "$clone"

# The processor seconds, to a tenth, of a command in a folder of the clone; its output goes into a log.
seconds() (
    folder=$clone/$1 log=$scratch/log spent=$scratch/spent
    shift
    cd "$folder"
    if ! { time "$@" > "$log" 2>&1; } 2> "$spent"; then
        printf 'failed in %s: %s\n' "$folder" "$*" >&2
        tail -n 20 "$log" >&2
        exit 1
    fi
    awk '{ printf "%.1f\n", $1 + $2 }' "$spent"
)

# How many tests a crate has, and how many edits.
tests_of() {
    { grep -rhF --include='*.rt' '#[test]' "$clone/crates/$1/src" || true; } | wc -l
}
edits_of() {
    find "$clone/crates/$1" -path '*/must-fail/*.edit' | wc -l
}

# Of the tests of a crate: what `rt test` takes less the running.
tests_proved() {
    local first again
    first=$(seconds "crates/$1" rt test --jobs 1)
    again=$(seconds "crates/$1" rt test --jobs 1)
    awk -v first="$first" -v again="$again" 'BEGIN { printf "%.1f\n", first - again }'
}

row() {
    local crate=$1 tests edits proof proved='' tried=''
    tests=$(tests_of "$crate")
    edits=$(edits_of "$crate")
    proof=$(seconds "crates/$crate" rt check --jobs 1)
    if [ "$tests" -gt 0 ]; then proved=$(tests_proved "$crate"); fi
    if [ "$edits" -gt 0 ]; then tried=$(seconds . rt must-fail ${ANEW:-} "$crate"); fi
    printf '| %s | %s | %s | %s | %s | %s |\n' "$crate" "$proof" "${tests#0}" "$proved" "${edits#0}" "$tried"
}

# Each row as it comes, and the sums once all have come.
with_sums() {
    awk -F'|' '
        /^end$/ { printf "| all | %.0f | %d | %.0f | %d | %.0f |\n", proof, tests, proved, edits, tried; next }
        { print; fflush(); proof += $3; tests += $4; proved += $5; edits += $6; tried += $7 }
    '
}

rows() {
    local crate
    for crate in $(below "$@"); do
        case " $* " in
            *" $crate "*) row "$crate" ;;
            *) seconds "crates/$crate" rt check --jobs 1 > /dev/null ;;
        esac
    done
    echo end
}

if [ $# -eq 0 ]; then
    set -- $(sed -n 's/^\([a-z_]*\)[ :].*/\1/p' "$top/crates.txt")
fi
printf 'Of %s, on %s, with %s processors; %s.\n\n' "$(git -C "$clone" log -1 --format=%h)" "$(date +%F)" "$(nproc)" "$(rt version | head -n 1)"
printf '| Crate | Proof | Tests | their proof | Edits | their trial |\n|---|---|---|---|---|---|\n'
rows "$@" | with_sums
