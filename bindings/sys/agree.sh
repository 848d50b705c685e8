#!/usr/bin/env bash
# Holds the declarations in src/lib.rs to those of include/notchergrey.h and to the proved doors: the same functions in
# the same order, each with the same result and the same parameters by name and type. All are brought into Rust's words,
# with a line for each name, parameter and result; what has no such words differs.
#
# It reads texts alone. So it does not see whether the archive was made from these doors, nor anything that a type does
# not say: how long a buffer must be, what may be null, the numbers of the refusals. Those numbers are held by runs, see
# bindings/test.sh.
set -euo pipefail
cd "$(dirname "${BASH_SOURCE[0]}")/../.."
export LC_ALL=C

# The functions behind these words in a file of Rust or Rattle.
functions() { # WORDS FILE
    sed 's|//.*||' "$2" | tr -s '[:space:]' ' ' | grep -oE "$1 \w+\([^)]*\)( -> \w+)?" | sed "s/^$1 //"
}

# Breaks functions into lines.
lines() {
    tr '(,)' '\n' | sed -E 's/^ +| +$//g; /^$/d'
}

in_rust=$(functions 'pub fn' bindings/sys/src/lib.rs | lines)

in_c=$(cc -E -P -x c include/notchergrey.h | tr -s '[:space:]' ' ' | grep -oE '[^;{}"]*notchergrey_\w+\([^;]*;' |
    sed -E 's/^ (\w+) (.*);$/\2 -> \1/' | lines | sed -E '
        s/uint([0-9]+)_t/u\1/
        s/size_t/usize/
        s/^const (\w+) \*(\w+)$/\2: *const \1/
        s/^(\w+) \*(\w+)$/\2: *mut \1/
        s/^(\w+) (\w+)\[(\w+)\]$/\2: *mut [\1; \3]/
        s/^(\w+) (\w+)$/\2: \1/')

# A slice of Rattle is a pointer and a length.
classes=$(sed -nE 's/^pub const CLASSES: usize = ([0-9]+);$/\1/p' crates/table/src/summing.rt)
proved=$(functions 'extern "C" fn' crates/capi/src/lib.rt | lines | sed -E "
        s/^(\w+): &\[(\w+)\]$/\1: *const \2\n\1_len: usize/
        s/^(\w+): &mut \[(\w+)\]$/\1: *mut \2\n\1_len: usize/
        s/: &mut (\w+|\[.*\])$/: *mut \1/
        s/\bCLASSES\b/$classes/")

diff --label 'the header' --label 'for Rust' -u <(echo "$in_c") <(echo "$in_rust")
diff --label 'the proved doors' --label 'for Rust' -u <(echo "$proved") <(echo "$in_rust")
echo "agree: $(grep -c '^->' <<< "$in_rust") functions, 0 differences"
