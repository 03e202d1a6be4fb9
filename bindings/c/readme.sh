#!/usr/bin/env bash
# Compiles and runs the lines of README.md, which docs/EMBEDDING.md has too.
set -euo pipefail
here=$(cd "$(dirname "${BASH_SOURCE[0]}")" && pwd)
lines() {
    sed -n '/^```c$/,/^```$/p' "$1" | sed '1d;$d'
}
diff <(lines "$here/README.md") <(lines "$here/../../docs/EMBEDDING.md")
{
    printf '#undef NDEBUG\n#include "rkyv_btree.h"\n#include <assert.h>\nint main(void) {\n'
    lines "$here/README.md"
    printf 'return 0;\n}\n'
} > "$1/readme.c"
cc -std=c11 -Wall -Wextra -Werror -I"$here/../../include" -o "$1/readme" "$1/readme.c" "$1/librkyv_btree.a"
"$1/readme"
