#!/usr/bin/env bash
# Tests `make install` and `make deb`: package_test.sh PROGRAM [SPLIT]
#
# The package is judged by lintian, and installed and removed under a folder that knows the machine's own packages: so
# dpkg judges what it depends on, and nothing of the machine changes.
# RUNS = ("$H2AUDIT $SPLIT",)
set -euo pipefail
cd "$(dirname "$0")/../../.."

program=$(realpath "$1")
work=$(mktemp -d)
trap 'rm -r "$work"' EXIT
# Without SPLIT a copy of PROGRAM stands in for it.
split=$work/split
cp "${2-$1}" "$split"

fail() {
    echo "$1"
    exit 1
}

# The files and links below a folder, but not dpkg's own.
files_below() {
    (cd "$1" && find . -path ./var -prune -o ! -type d -print | LC_ALL=C sort)
}

same() {
    diff <(echo "$2") <(echo "$3") || fail "$1 differ: < wanted, > found"
}

on_root() {
    dpkg --root="$work/root" --force-not-root --force-script-chrootless "$@" \
        2> >(grep -v 'files list file for package' >&2)
}

# The programs beside h2audit, by what follows their names.
beside=(-any -comment -fleet -import -merge -page -plot -split -why)

# The programs and their completions for bash.
installed() {
    printf "./$1/bin/h2audit%s\n" '' "${beside[@]}"
    printf "./$1/share/bash-completion/completions/h2audit%s\n" '' "${beside[@]}"
}

# By the repository, and not by the Makefile: each module and asset, and the schema of h2audit-why's JSON.
modules() {
    find h2audit VERSION -name __pycache__ -prune -o -type f -printf "./$1/share/h2audit/%p\n"
    echo "./$1/share/h2audit/schema.json"
    echo "./$1/share/h2audit/trace.schema.json"
}

# The completions for fish, and the man pages, with what ends their names: words FOLDER and ENDING.
pages() {
    printf "./$1/share/fish/vendor_completions.d/h2audit%s.fish\n" '' "${beside[@]}"
    printf "./$1/share/man/man1/h2audit%s$2\n" '' "${beside[@]}"
}

in_order() {
    LC_ALL=C sort
}

test_install() {
    make --no-print-directory install PROGRAM="$program" SPLIT="$split" DESTDIR="$work/dest" PREFIX=/opt/h2audit \
        > /dev/null
    same 'installed files' "$({
        installed opt/h2audit
        modules opt/h2audit
        pages opt/h2audit .1
        echo ./opt/h2audit/share/zsh/site-functions/_h2audit
    } | in_order)" "$(files_below "$work/dest")"
    cmp "$program" "$work/dest/opt/h2audit/bin/h2audit"
    "$work/dest/opt/h2audit/bin/h2audit-merge" --version
}

build() {
    make --no-print-directory deb PROGRAM="$program" SPLIT="$split" PACKAGES="$1"
}

test_package() {
    local package
    package=$(build "$work/packages")
    cmp "$package" "$(build "$work/again")"
    lintian --allow-root --fail-on error,warning "$package"
    prepare_root
    on_root --install "$package" > /dev/null
    compiled
    same 'files of the package' "$({
        installed usr
        modules usr
        pages usr .1.gz
        printf './usr/share/%s\n' doc/h2audit/{changelog.gz,copyright} zsh/vendor-completions/_h2audit
    } | in_order)" "$(files_below "$work/root" | grep -v /__pycache__/)"
    run_installed
    on_root --purge h2audit > /dev/null
    same 'files that are left' '' "$(files_below "$work/root")"
}

# A folder in which the same packages are installed as on this machine.
prepare_root() {
    mkdir -p "$work"/root/var/lib/dpkg/{info,updates,triggers}
    cp /var/lib/dpkg/status "$work/root/var/lib/dpkg/status"
}

# Each module has its bytecode.
compiled() {
    local modules
    mapfile -t modules < <(cd "$work/root" && find usr/share/h2audit -name '*.py')
    same 'compiled modules' "${#modules[@]}" "$(files_below "$work/root" | grep -c '/__pycache__/.*\.pyc$')"
}

run_installed() {
    local bin=$work/root/usr/bin
    "$bin/h2audit" --help > /dev/null
    "$bin/h2audit-plot" examples/negative_window.frames.report > "$work/picture.svg"
    "$bin/h2audit-comment" examples/negative_window.pcap examples/negative_window.report -o "$work/c.pcapng"
    "$bin/h2audit-page" examples/negative_window.frames.report -o "$work/page.html"
    "$bin/h2audit-import" -o "$work/made.pcap" -k tests/tls/nghttp-nghttpd-13.{keys,pcap}
    "$bin/h2audit-any" examples/negative_window.pcap > /dev/null
    "$bin/h2audit-fleet" --version > /dev/null
    "$bin/h2audit-why" --version > /dev/null
    "$bin/h2audit-split" --help > /dev/null
    mandoc -Tmarkdown "$work/root/usr/share/man/man1/h2audit.1.gz" | grep '# EXIT STATUS' > /dev/null ||
        fail 'the manual of the package cannot be read'
}

test_install
test_package
