#!/usr/bin/env bash
# Installs what is built, or removes what it installs: the programs with their man pages and the words that bash completes, and the library
# for C with its header and its file for pkg-config. It proves and builds nothing: where a file isn't built, it names the command that builds
# it.
#
#     tools/install.sh [--remove] programs|library..
#
# The folders are below PREFIX, /usr/local if it isn't given: BINDIR, MANDIR, COMPLETIONSDIR, INCLUDEDIR and LIBDIR name others. DESTDIR is
# put before each of them, and no installed file names it.
set -euo pipefail
cd "$(dirname "${BASH_SOURCE[0]}")/.."

prefix=${PREFIX:-/usr/local}
bin=${BINDIR:-$prefix/bin}
man=${MANDIR:-$prefix/share/man}/man1
completions=${COMPLETIONSDIR:-$prefix/share/bash-completion/completions}
include=${INCLUDEDIR:-$prefix/include}
lib=${LIBDIR:-$prefix/lib}
root=${DESTDIR:-}
build=bindings/build
version=$(sed -n 's/^version = "\(.*\)"$/\1/p' bindings/rust/Cargo.toml)
soname=librkyv_btree.so.${version%%.*}
library=librkyv_btree.so.$version

fail() {
    echo "tools/install.sh: $*" >&2
    exit 1
}

# Fails unless the files are built, and names the command that builds them.
built() {
    local command=$1 file
    shift
    for file; do
        [[ -f $file ]] || fail "$file isn't built: run $command"
    done
}

needs_programs() {
    built "make programs" crates/btreearc/out/btreearc crates/btreekv/out/btreekv
}

needs_library() {
    built "make bindings" "$build/librkyv_btree.a" "$build/librkyv_btree.so"
}

# Returns a folder as a file for pkg-config names it: below the prefix by that word, so that it can be moved.
below_prefix() {
    if [[ $1 == "$prefix"/* ]]; then
        echo "\${prefix}/${1#"$prefix"/}"
    else
        echo "$1"
    fi
}

# Returns the file for pkg-config. The static library needs nothing but the C library.
description() {
    cat <<END
prefix=$prefix
includedir=$(below_prefix "$include")
libdir=$(below_prefix "$lib")

Name: rkyv_btree
Description: Archived B-tree maps: validated, read, edited and built without deserializing
Version: $version
Cflags: -I\${includedir}
Libs: -L\${libdir} -lrkyv_btree
END
}

install_programs() {
    install -d "$root$bin" "$root$man" "$root$completions"
    install -m 755 crates/btreearc/out/btreearc crates/btreekv/out/btreekv "$root$bin"
    install -m 644 docs/btreearc.1 docs/btreekv.1 "$root$man"
    install -m 644 completions/btreekv "$root$completions"
}

install_library() {
    install -d "$root$include" "$root$lib/pkgconfig"
    install -m 644 include/rkyv_btree.h "$root$include"
    install -m 644 "$build/librkyv_btree.a" "$root$lib"
    install -m 755 "$build/librkyv_btree.so" "$root$lib/$library"
    ln -sfn "$library" "$root$lib/$soname"
    ln -sfn "$soname" "$root$lib/librkyv_btree.so"
    description > "$root$lib/pkgconfig/rkyv_btree.pc"
    chmod 644 "$root$lib/pkgconfig/rkyv_btree.pc"
}

remove_programs() {
    rm -f "$root$bin"/btree{arc,kv} "$root$man"/btree{arc,kv}.1 "$root$completions/btreekv"
}

remove_library() {
    rm -f "$root$include/rkyv_btree.h" "$root$lib/librkyv_btree.a" "$root$lib/librkyv_btree.so" "$root$lib/$soname" "$root$lib/$library" \
        "$root$lib/pkgconfig/rkyv_btree.pc"
}

does=install
if [[ ${1:-} == --remove ]]; then
    does=remove
    shift
fi
(($# > 0)) || fail "which part: programs or library?"
[[ $prefix == /* ]] || fail "PREFIX must begin with /: $prefix"
for part; do
    [[ $part == programs || $part == library ]] || fail "no such part: $part"
done
# what isn't built is named before anything is installed
[[ $does == remove ]] || for part; do "needs_$part"; done
for part; do
    "${does}_$part"
done
