#!/usr/bin/env bash
# Builds a Debian package: build_deb.sh STAGE FOLDER
#
# STAGE has what `make install` put there with PREFIX=/usr. The package goes to FOLDER, and its name is printed. Its
# version is that of VERSION. Equal files give an equal package, byte for byte.
set -euo pipefail
cd "$(dirname "$0")"

stage=$1
folder=$2
version=$(tr - '~' < ../../VERSION)
architecture=$(dpkg --print-architecture)
package=$folder/h2audit_${version}_$architecture.deb
SOURCE_DATE_EPOCH=$(date -d "$(sed -n '/^ -- /{s/.*>  //p;q}' changelog)" +%s)
export SOURCE_DATE_EPOCH

# The newest version of the C library whose names the programs ask for.
libc_of() {
    objdump -T "$@" 2>/dev/null | sed -n 's/.*GLIBC_\([0-9.]*\).*/\1/p' | sort -V | tail -n 1
}

# The packages of the other libraries that the programs ask for, each with a comma before it.
libraries_of() {
    local path
    ldd "$@" | sed -n 's/.* => \(\/[^ ]*\) .*/\1/p' | sort -u | while read -r path; do
        dpkg-query -S "$path" 2> /dev/null || dpkg-query -S "/usr$path" || dpkg-query -S "${path#/usr}"
    done | sed 's/:.*//' | sort -u | sed -n '/^libc6$/!s/^/, /p' | tr -d '\n'
}

# Documents, as Debian wants them: compressed, with licence and changelog.
documents() {
    local doc=$stage/usr/share/doc/h2audit
    install -d "$doc"
    { printf 'Licence of h2audit:\n\n'; cat ../../LICENSE; } > "$doc/copyright"
    gzip -9n < changelog > "$doc/changelog.gz"
    gzip -9nf "$stage"/usr/share/man/man1/*.1
}

control() {
    local libc libraries size
    libc=$(libc_of "${programs[@]}")
    libraries=$(libraries_of "${programs[@]}")
    size=$(du -k -s --apparent-size "$stage/usr" | cut -f 1)
    install -d "$stage/DEBIAN"
    install -m 755 postinst prerm "$stage/DEBIAN"
    sed -e "s/@VERSION@/$version/" -e "s/@ARCHITECTURE@/$architecture/" -e "s/@SIZE@/$size/" \
        -e "s/@LIBC@/${libc:+ (>= $libc)}/" -e "s/@LIBRARIES@/$libraries/" control > "$stage/DEBIAN/control"
    (cd "$stage" && find usr -type f -print0 | LC_ALL=C sort -z | xargs -0 md5sum > DEBIAN/md5sums)
}

programs=("$stage"/usr/bin/h2audit{,-any,-comment,-import,-merge,-split,-why})
strip --strip-unneeded --remove-section=.comment --remove-section=.note "${programs[@]}"
documents
control
find "$stage" -exec touch --no-dereference --date="@$SOURCE_DATE_EPOCH" {} +
dpkg-deb --build --root-owner-group "$stage" "$package" > /dev/null
echo "$package"
