#!/usr/bin/env bash
# Installs the built library into a folder of its own, builds the test in C over it by pkg-config, shared and static, runs both, and
# uninstalls it. If both programs are built, they are installed and run too. make bindings runs this.
#
#     tools/installed.sh
#
# The status is 0 where all is as it must be.
set -euo pipefail
export LC_ALL=C
cd "$(dirname "${BASH_SOURCE[0]}")/.."

work=$(mktemp -d)
trap 'rm -rf "$work"' EXIT

fail() {
    echo "installed: $*" >&2
    exit 1
}

# folders of the caller's choice are no part of the test
unset BINDIR MANDIR COMPLETIONSDIR INCLUDEDIR LIBDIR PKG_CONFIG_LIBDIR
export DESTDIR=$work/root PREFIX=/opt/maps
installed=$DESTDIR$PREFIX
version=$(sed -n 's/^version = "\(.*\)"$/\1/p' bindings/rust/Cargo.toml)

parts=(library)
files=(include/rkyv_btree.h lib/librkyv_btree.{a,so,so.0} "lib/librkyv_btree.so.$version" lib/pkgconfig/rkyv_btree.pc)
if [[ -f crates/btreearc/out/btreearc && -f crates/btreekv/out/btreekv ]]; then
    parts+=(programs)
    files+=(bin/btree{arc,kv} share/man/man1/btree{arc,kv}.1 share/bash-completion/completions/btreekv)
else
    echo "installed: the programs left out: they aren't built (make programs builds them)"
fi

tools/install.sh "${parts[@]}"
cmp <(cd "$installed" && find . ! -type d | sort) <(printf './%s\n' "${files[@]}" | sort) || fail "other files than these: ${files[*]}"

# pkg-config puts the folder before the paths that it names
flags() {
    PKG_CONFIG_PATH=$installed/lib/pkgconfig PKG_CONFIG_SYSROOT_DIR=$DESTDIR pkg-config "$@" rkyv_btree
}
[[ $(flags --modversion) == "$version" ]] || fail "another version: $(flags --modversion)"
read -ra compiling <<< "$(flags --cflags)"
read -ra shared <<< "$(flags --libs)"
read -ra static <<< "$(flags --static --libs)"

# The test writes its archives where it runs.
cd "$work"
source=$OLDPWD/bindings/c/test.c
cc -std=c11 -o shared "$source" "${compiling[@]}" "${shared[@]}"
cc -std=c11 -o static "$source" "${compiling[@]}" -Wl,-Bstatic "${static[@]}" -Wl,-Bdynamic
LD_LIBRARY_PATH=$installed/lib ./shared || fail "the test over the shared library"
./static || fail "the test over the static library"
! ./shared > /dev/null 2>&1 || fail "the test over the shared library doesn't need it"

# a program finds the library by the name of its interface, not by that of its version
rm "$installed/lib/librkyv_btree.so"
LD_LIBRARY_PATH=$installed/lib ./shared || fail "the shared library isn't found as librkyv_btree.so.0"
cd "$OLDPWD"

if [[ ${parts[*]} == *programs* ]]; then
    [[ $(printf '7 11\n' | "$installed/bin/btreearc" build | "$installed/bin/btreearc" get 7) == 11 ]] || fail "btreearc"
    [[ $(printf 'pear\t5\n' | "$installed/bin/btreekv" build | "$installed/bin/btreekv" get pear) == 5 ]] || fail "btreekv"
fi

tools/install.sh --remove "${parts[@]}"
[[ -z $(find "$DESTDIR" ! -type d) ]] || fail "left after uninstalling: $(find "$DESTDIR" ! -type d)"
