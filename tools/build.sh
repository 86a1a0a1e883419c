#!/usr/bin/env bash
# Proves the programs with all that they stand on, builds them, and leaves them where "make test" does: tools/build.sh
#
# It runs the toolchain's gate over a copy of the crates without must-fail edits and without the tests of calls: there a
# crate reads the statements of those below it and not their proofs, as it would after "rt lib".
set -euo pipefail
cd "$(dirname "$0")/.."

programs=(h2audit_cli h2audit_split)
work=$(mktemp -d)
trap 'rm -r "$work"' EXIT

# What the gate reads of the crate of this folder, but its edits.
copy_crate() {
    mkdir -p "$work/copy/$1"
    for part in src specs proofs args stdin stdout status data; do
        [[ ! -e $1/$part ]] || cp -R "$1/$part" "$work/copy/$1"
    done
}

for crate in crates/*; do
    [[ $crate == crates/crate_tests ]] || copy_crate "$crate"
done
grep -v '^crate_tests:' crates.txt > "$work/copy/crates.txt"
cp HANDLES "$work/copy"

(cd "$work/copy" && rt ci 2>&1) | tee "$work/said" | sed -un 's/^rt: \([a-z0-9_]*\) \(proved\|is kept\).*/\1: \2/p' || {
    cat "$work/said" >&2
    exit 1
}
for program in "${programs[@]}"; do
    mkdir -p "crates/$program/out"
    install -m 755 "$work/copy/crates/$program/out/$program" "crates/$program/out"
    echo "built: crates/$program/out/$program"
done
