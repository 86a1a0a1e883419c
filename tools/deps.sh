#!/usr/bin/env bash
# The Debian packages that the build of the programs in Rust, and the tests, need and that are missing:
# deps.sh installs them, as root; deps.sh --check fails with their list.
set -euo pipefail

needed=(python3-matplotlib mandoc lintian zsh fish gawk mawk original-awk tshark binutils gcc libc6-dev git)
# For costs.
needed+=(valgrind)
# For the form and the types of Python.
needed+=(black flake8 isort mypy)
# For the page and its tests.
needed+=(libjs-dygraphs chromium chromium-driver firefox-esr python3-selenium poppler-utils)
# For imports and their tests.
needed+=(python3-cryptography python3-zstandard zstd tcpdump openssl)
# For the programs in Rust.
needed+=(cargo rustc rustfmt rust-clippy clang pkg-config libssl-dev libzstd-dev liblzma-dev libbz2-dev)
needed+=(librust-{atty,bzip2,flate2,itoa,lexopt,memchr,once-cell,openssl,rlimit}-dev)
needed+=(librust-{signal-hook,tempfile,terminal-size,xz2,zstd}-dev)
# For many captures and their tests.
needed+=(python3-distributed sqlite3 parallel iproute2)
# For the answer in words and its tests, which start real servers and clients.
needed+=(python3-hpack python3-jsonschema python3-grpcio libxml2-utils)
needed+=(nginx-light nghttp2-client nghttp2-server h2o caddy nodejs curl)
needed+=(nghttp2-proxy haproxy apache2-bin)
# So many seconds may pass until all are installed.
patience=900

missing() {
    local package
    for package in "${needed[@]}"; do
        dpkg-query -W -f '${Status}\n' "$package" 2> /dev/null | grep -qx 'install ok installed' || echo "$package"
    done
}

fail() {
    echo "deps: $1" >&2
    exit 1
}

mapfile -t packages < <(missing)
[[ ${#packages[@]} -gt 0 ]] || exit 0
[[ ${1-} != --check ]] || fail "install these Debian packages first, or run make deps as root: ${packages[*]}"
[[ $(id -u) -eq 0 ]] || fail "run it as root, or install these Debian packages: ${packages[*]}"
echo "installing ${packages[*]}"
export DEBIAN_FRONTEND=noninteractive
said=$(mktemp)
trap 'rm "$said"' EXIT
# Where there is no network this fails within minutes, and does not hang.
options=(-o Acquire::Retries=1 -o Acquire::http::Timeout=20 -o DPkg::Lock::Timeout=60)
timeout 120 apt-get "${options[@]}" update > "$said" 2>&1 || true
timeout "$patience" apt-get "${options[@]}" -o Dpkg::Options::=--force-unsafe-io install -y --no-install-recommends \
    "${packages[@]}" < /dev/null >> "$said" 2>&1 || {
    tail -n 5 "$said" >&2
    fail "these Debian packages are missing and could not be installed: ${packages[*]}"
}
