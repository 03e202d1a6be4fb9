#!/usr/bin/env bash
# Builds the static library and the shared one into bindings/build, and builds and tests the bindings over them: C with cc, and again with
# sanitizers and under valgrind; Rust with cargo, Python with python3. Then it installs the library into a folder of its own, and the programs
# if they are built, and builds C over that with pkg-config. It says which it left out because its compiler isn't there; where the environment
# has CI=true, that is a failure. It downloads nothing. RT is rt's command, if not rt.
#
#     tools/bindings.sh [--after-ci | LIBRARY]
#
# LIBRARY is a built out/librkyv_btree_ffi.a. Without it rt proves and builds the crate, which takes minutes the first time; --after-ci has
# it take the libraries that rt ci has just built. The last line is `N passed, M failed`, and the status is 0 if nothing failed.
set -euo pipefail
cd "$(dirname "${BASH_SOURCE[0]}")/.."
read -ra rt <<< "${RT:-rt}"

passed=0 failed=0
try() {
    local name=$1
    shift
    if "$@"; then
        passed=$((passed + 1))
        echo "bindings: $name passed"
    else
        failed=$((failed + 1))
        echo "bindings: $name failed" >&2
    fi
}

# Returns whether the commands are there, without which a part is left out.
has() {
    local name=$1 command
    shift
    for command; do
        command -v "$command" > /dev/null && continue
        echo "bindings: $name left out: there is no $command" >&2
        [[ ${CI:-} != true ]] || failed=$((failed + 1))
        return 1
    done
}

finish() {
    echo "$passed passed, $failed failed"
    exit $((failed > 0))
}

has all cc ar objcopy nm || finish

library=crates/rkyv_btree_ffi/out/librkyv_btree_ffi.a
proved() {
    case ${1:-} in
        "") (cd crates/rkyv_btree_ffi && "${rt[@]}" lib) ;;
        --after-ci) tools/static_library.py ;;
        *) library=$1 && [[ -f $library ]] ;;
    esac
}
if ! proved "$@"; then
    echo "bindings: all failed: $library isn't built" >&2
    failed=1
    finish
fi

# The kit's C code asks the C library for memory, and is put into the same archive: one object, in which only the header's names are global.
kit=$(cd "$(dirname "$(readlink -f "$(command -v "${rt[0]}")")")/.." && pwd)
build=bindings/build
mkdir -p "$build"
rm -f "$build/librkyv_btree.a"
cc -nostdlib -r -o "$build/rkyv_btree.o" -Wl,--whole-archive "$library" "$kit/c/liblibc_c.a" -Wl,--no-whole-archive
objcopy --wildcard --keep-global-symbol='rkyv_btree_*' "$build/rkyv_btree.o"
ar rcs "$build/librkyv_btree.a" "$build/rkyv_btree.o"
printf '{ global: rkyv_btree_*; local: *; };\n' > "$build/exports"
cc -shared -o "$build/librkyv_btree.so" -Wl,-soname,librkyv_btree.so.0 \
    -Wl,--whole-archive "$build/librkyv_btree.a" -Wl,--no-whole-archive \
    -Wl,-z,defs,-z,text,--version-script="$build/exports"

# Returns whether the names that both libraries define for others are those of the header.
names() {
    local header=include/rkyv_btree.h
    grep -o '\brkyv_btree_[a-z_]*(' "$header" | tr -d '(' | sort -u > "$build/header.names"
    nm -g --defined-only -f posix "$build/librkyv_btree.a" | awk 'NF > 1 { print $1 }' | sort -u | diff "$build/header.names" - &&
        nm -D --defined-only -f posix "$build/librkyv_btree.so" | awk '{ print $1 }' | sort -u | diff "$build/header.names" -
}
try names names

# Compiles the test and the examples into a folder, by a compiler and its flags.
compiled() {
    local folder=$1 name
    shift
    mkdir -p "$folder"
    for name in test lookup edit; do
        "$@" -std=c11 -Wall -Wextra -Wpedantic -Werror -Iinclude -o "$folder/$name" "bindings/c/$name.c" "$build/librkyv_btree.a" || return
    done
}

c() {
    compiled "$build" cc -O2 && bindings/c/readme.sh "$build" && (cd "$build" && ./test) && bindings/c/examples.sh "$build"
}
try C c

# The library's own code has no checks of a sanitizer: these see the calls and the blocks of memory. valgrind sees the library's code too. Without
# these tools both are left out, with CI=true too.
sanitizers=(-g -O1 -fno-omit-frame-pointer -fsanitize=address,undefined -fno-sanitize-recover=all)
sanitized() {
    local folder=$build/sanitized
    compiled "$folder" "$1" "${sanitizers[@]}" && (cd "$folder" && ./test) && bindings/c/examples.sh "$folder"
}
sanitizing() {
    local compiler
    for compiler in clang cc; do
        echo 'int main(void) { return 0; }' | "$compiler" "${sanitizers[@]}" -x c -o "$build/empty" - 2> /dev/null && "$build/empty" || continue
        try "C with sanitizers" sanitized "$compiler"
        return
    done
    echo "bindings: C with sanitizers left out: neither clang nor cc has them" >&2
}
sanitizing

# A short run: valgrind takes about a hundred times as long.
watched() {
    local folder=$build/watched
    compiled "$folder" cc -g -O1 &&
        (cd "$folder" && valgrind --quiet --error-exitcode=99 --leak-check=full --show-leak-kinds=all --errors-for-leak-kinds=all ./test short)
}
if command -v valgrind > /dev/null; then
    try "C under valgrind" watched
else
    echo "bindings: C under valgrind left out: there is no valgrind" >&2
fi

# The crate as cargo packages it is built over the library that the variable names, since it lies in another folder then.
rust() {
    local CARGO_TARGET_DIR=$PWD/$build/rust
    export CARGO_TARGET_DIR
    cargo test --quiet --offline --manifest-path bindings/rust/Cargo.toml &&
        RKYV_BTREE_LIB_DIR=$PWD/$build cargo package --quiet --offline --allow-dirty --manifest-path bindings/rust/Cargo.toml
}
if has Rust cargo; then
    try Rust rust
fi

# The package as pip installs it, without a network, has the library in its folder.
python() {
    local installed=$PWD/$build/python
    rm -rf "$installed"
    PYTHONDONTWRITEBYTECODE=1 PYTHONPATH=bindings/python python3 -m unittest -q test_rkyv_btree test_remote &&
        PIP_ROOT_USER_ACTION=ignore python3 -m pip install --quiet --disable-pip-version-check --no-index --target "$installed" bindings/python &&
        (cd / && env -u RKYV_BTREE_LIB PYTHONPATH="$installed" python3 -c '
import pathlib, rkyv_btree, rkyv_btree.shards
from importlib.metadata import version
assert version("rkyv-btree") == rkyv_btree.__version__
assert (pathlib.Path(rkyv_btree.__file__).parent / "librkyv_btree.so").exists()
assert rkyv_btree.Map(rkyv_btree.build("text", "u32", [("pear", 5)]), "text", "u32")["pear"] == 5')
}
if has Python python3; then
    try Python python
fi

# Data sets of many archives, by the first Python that has fsspec and Dask: Debian's packages are those of /usr/bin/python3. Without them
# their tests are left out, with CI=true too.
sharded() {
    PYTHONDONTWRITEBYTECODE=1 PYTHONPATH=bindings/python PYTHONWARNINGS=ignore::DeprecationWarning "$1" -m unittest -q test_shards
}
shards() {
    local interpreter
    for interpreter in python3 /usr/bin/python3; do
        "$interpreter" -c "import fsspec, dask, distributed" 2> /dev/null || continue
        try "Python's shards" sharded "$interpreter"
        return
    done
    echo "bindings: Python's shards over fsspec and Dask left out: python3 has no fsspec, dask and distributed" >&2
    try "Python's shards" sharded python3
}
if command -v python3 > /dev/null; then
    shards
fi

# Lookups over a server of HTTP. Without nginx they are left out, with CI=true too.
served() {
    PYTHONDONTWRITEBYTECODE=1 PYTHONPATH=bindings/python python3 -m unittest -q test_nginx
}
if command -v python3 > /dev/null && PATH=$PATH:/usr/sbin type -P nginx > /dev/null; then
    try "Python over nginx" served
else
    echo "bindings: Python over nginx left out: there is no nginx" >&2
fi

if has "the installed library" pkg-config; then
    try "the installed library" tools/installed.sh
fi

finish
