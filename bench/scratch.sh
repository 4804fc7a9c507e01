# Sourced by the scripts beside it. Makes a scratch repository: `top` is this repository and `scratch` that one, and `take CRATE..` copies the code, the
# definitions and the proofs of crates, and of those that they stand on by crates.txt, into it, with their lines of crates.txt. It is removed at the end, unless KEEP names the folder in which it is to stand: then it stays there with what was
# proved, and the next run of the same script with that KEEP proves only what has changed.
set -eu

top=$(cd "$(dirname "$0")/.." && pwd)
if [ -n "${KEEP:-}" ]; then
    mkdir -p "$KEEP/crates"
    scratch=$(cd "$KEEP" && pwd)
    # What the last run wrote is written anew; what it proved stands in out/.
    rm -rf "$scratch"/crates/*/src "$scratch"/crates/*/specs "$scratch"/crates/*/proofs
else
    scratch=$(mktemp -d)
    trap 'rm -rf "$scratch"' EXIT
    mkdir "$scratch/crates"
fi
: > "$scratch/crates.txt"

# The crates and those of crates.txt that they stand on, lowest first.
below() {
    awk -v crates="$*" '
        function visit(crate,    uses, count, at) {
            if (!(crate in libraries) || crate in seen) return
            seen[crate] = 1
            count = split(libraries[crate], uses, " ")
            for (at = 1; at <= count; at++) visit(uses[at])
            print crate
        }
        /^[^#]/ {
            colon = index($0, ":")
            split(substr($0, 1, colon), head, /[ :]/)
            libraries[head[1]] = substr($0, colon + 1)
        }
        END {
            asked = split(crates, names, " ")
            for (which = 1; which <= asked; which++) visit(names[which])
        }
    ' "$top/crates.txt"
}

copy() {
    mkdir -p "$scratch/crates/$1"
    for part in src specs proofs; do
        if [ -d "$top/crates/$1/$part" ]; then
            cp -r "$top/crates/$1/$part" "$scratch/crates/$1/$part"
        fi
    done
}

take() {
    for crate in $(below "$@"); do
        copy "$crate"
        grep -E "^$crate[ :]" "$top/crates.txt" >> "$scratch/crates.txt"
    done
}
