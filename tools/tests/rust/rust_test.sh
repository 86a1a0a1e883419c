#!/usr/bin/env bash
# Tests of the programs in Rust by themselves: rust_test.sh form | tests
#
# Their form and clippy without a warning, or `cargo test`; by Debian's compiler, the oldest that builds them.
# RUNS = ("form", "tests")
# LIMIT = 1200
# QUICK = True
set -euo pipefail
cd "$(dirname "$0")/../../../companions"
export PATH=/usr/bin:/bin

case ${1-} in
form)
    cargo-fmt --all --check
    cargo-clippy clippy --quiet --release --locked --all-targets -- -D warnings
    ;;
tests) cargo test --quiet --release --locked ;;
*)
    echo 'rust_test.sh form | tests' >&2
    exit 2
    ;;
esac
