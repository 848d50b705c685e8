#!/usr/bin/env bash
# Holds the header, the Rust wrapper and the example programs to the library and to the slow program, which needs the
# archive that `bash archive capi` writes. Its last line is 'bindings: N runs, 0 differences', and its exit status 0,
# only if the header compiles without a warning, the declarations for Rust agree with it, every constant of the header
# is provoked and is what it says, all tests of the wrapper pass, every table and every backbone that is printed is the
# slow program's, lists and scripts turn into each other and back, each wrong list is refused in its line, and markers
# stand where they must, one by one and laid as a set.
set -euo pipefail

# What the caller's environment says must not change what is tested: only what the tools need to be found is kept.
for name in $(compgen -e); do
    case $name in
        PATH | HOME | PWD | TMPDIR | CARGO_HOME | RUSTUP_HOME | RUSTUP_TOOLCHAIN) ;;
        *) unset "$name" 2>/dev/null || true ;; # bash keeps what is its own
    esac
done
export LC_ALL=C PWD
cd "$(dirname "${BASH_SOURCE[0]}")/.."

archive=target/staticlib/libcapi.a
warnings=(-Wall -Wextra -pedantic -Werror)
offline=(--quiet --release --locked --offline)
wrapper=("${offline[@]}" --manifest-path bindings/rust/Cargo.toml --target-dir bindings/rust/target)

# None of these may become fewer unseen: the header's constants, the wrapper's tests, the examples, those of them with a
# backbone beside them.
least_constants=34
least_tests=92
least_examples=26
least_backbones=5

runs=0
fail() { # WHAT
    echo "bindings: $1"
    exit 1
}

[ -f "$archive" ] || fail "$archive is missing: run 'bash archive capi' first"
scratch=$(mktemp -d)
trap 'rm -rf "$scratch"' EXIT

echo 'bindings: the header as C99 and as C++'
cc -std=c99 "${warnings[@]}" -fsyntax-only -x c include/notchergrey.h
c++ -std=c++11 "${warnings[@]}" -fsyntax-only -x c++ include/notchergrey.h

echo 'bindings: the declarations for Rust beside the header and the proved doors'
bash bindings/sys/agree.sh

# Name and number of each constant in the header.
constants() {
    cc -E -P -x c include/notchergrey.h | grep -oE 'NOTCHERGREY_\w+ = \w+' | sed 's/ = / /'
    cc -E -dM -x c include/notchergrey.h | sed -nE 's/^#define (NOTCHERGREY_\w+ .+)$/\1/p'
}

echo 'bindings: the constants of the header, each provoked, under the stack that the header asks for'
cc -std=c99 -O2 "${warnings[@]}" -Iinclude bindings/c/constants.c "$archive" -o "$scratch/constants"
constants | sort > "$scratch/named"
(ulimit -s 512 && exec "$scratch/constants") | sort > "$scratch/held"
diff --label 'in the header' --label 'provoked' -u "$scratch/named" "$scratch/held"
held=$(wc -l < "$scratch/held")
[ "$held" -ge "$least_constants" ] || fail "$held constants were provoked, not $least_constants"
runs=$((runs + held))

echo 'bindings: the tests of the wrapper'
cargo test "${wrapper[@]}" 2>&1 | tee "$scratch/tests"
! grep -q FAILED "$scratch/tests" || fail 'a test failed'
every='^test result: ok\. ([0-9]+) passed; 0 failed; 0 ignored; 0 measured; 0 filtered out;.*'
! grep '^test result:' "$scratch/tests" | grep -vE "$every" || fail 'not every test was run'
tests=$(sed -nE "s/$every/\\1/p" "$scratch/tests" | awk '{ n += $1 } END { print n + 0 }')
[ "$tests" -ge "$least_tests" ] || fail "$tests tests were run, not $least_tests"
runs=$((runs + tests))

# Builds the declarations in a folder that holds the archive as near/libcapi.a.
build_near() { # FOLDER
    (cd "$scratch/user" && NOTCHERGREY_STATICLIB=$1 cargo build "${offline[@]}" --target-dir "$scratch/user/target" \
        --manifest-path "$OLDPWD/bindings/sys/Cargo.toml")
}

echo 'bindings: an archive elsewhere'
mkdir -p "$scratch/user/near"
cp "$archive" "$scratch/user/near"
build_near near
linked=cargo::rustc-link-search=native=$(realpath "$scratch")/user/near
grep -qFx "$linked" "$scratch"/user/target/release/build/*/output ||
    fail 'another archive was linked than the one named'
if build_near far 2> "$scratch/said"; then
    fail 'an archive that is missing was linked'
fi
grep -q 'libcapi.a is missing, .*/user/far/libcapi.a and .*: run `bash archive capi`' "$scratch/said" || {
    cat "$scratch/said"
    fail 'it is not said which archive is missing'
}
runs=$((runs + 2))

echo 'bindings: the example programs'
cc -std=c99 -O2 "${warnings[@]}" -Iinclude examples/c/print_table.c "$archive" -o "$scratch/in_c"
cc -std=c99 -O2 "${warnings[@]}" -Iinclude examples/c/chain.c "$archive" -o "$scratch/chain_in_c"
cc -std=c99 -O2 "${warnings[@]}" -Iinclude examples/c/markers.c "$archive" -o "$scratch/markers_in_c"
cc -std=c99 -O2 "${warnings[@]}" -Iinclude examples/c/lay_markers.c "$archive" -o "$scratch/lay_in_c"
cargo build "${wrapper[@]}" --example print_table --example list --example chain --example markers --example lay_markers
cp bindings/rust/target/release/examples/print_table "$scratch/in_rust"
cp bindings/rust/target/release/examples/chain "$scratch/chain_in_rust"
cp bindings/rust/target/release/examples/markers "$scratch/markers_in_rust"
cp bindings/rust/target/release/examples/lay_markers "$scratch/lay_in_rust"
cp bindings/rust/target/release/examples/list "$scratch/list"
cargo build "${offline[@]}" --manifest-path compare/Cargo.toml --target-dir compare/target --bin slow

# Runs both programs and ends here, with what differs, if one is wrong.
hold() { # SCRIPT
    compare/target/release/slow < "$1" > "$scratch/wanted"
    for program in in_c in_rust; do
        "$scratch/$program" "$1" > "$scratch/got" 2> "$scratch/said" && diff "$scratch/wanted" "$scratch/got" || {
            cat "$scratch/said"
            fail "$program differs for $1"
        }
        runs=$((runs + 1))
    done
}

echo 'bindings: both programs over every example'
find examples -name '*.script' | sort > "$scratch/examples"
examples=$(wc -l < "$scratch/examples")
[ "$examples" -ge "$least_examples" ] || fail "there are $examples examples, not $least_examples"
while read -r script; do
    hold "$script"
done < "$scratch/examples"

echo 'bindings: both programs over one example cut short at every byte'
whole=examples/two-matches.script
for ((bytes = 0; bytes < $(wc -c < "$whole"); bytes++)); do
    head -c "$bytes" "$whole" > "$scratch/cut.script"
    hold "$scratch/cut.script"
done

# Runs the program for lists: it must write just this file.
turns() { # WANTED WAY [FILE]
    "$scratch/list" "${@:2}" > "$scratch/got" 2> "$scratch/said" && cmp "$1" "$scratch/got" || {
        cat "$scratch/said"
        fail "list ${*:2} does not write $1"
    }
    runs=$((runs + 1))
}

# Runs a program where it must end with this status, write nothing, and begin what it says with these words.
refused_by() { # PROGRAM STATUS WORDS [WORD..]
    local status=0
    "$scratch/$1" "${@:4}" > "$scratch/got" 2> "$scratch/said" || status=$?
    if [ "$status" -ne "$2" ] || [ -s "$scratch/got" ] || [[ $(cat "$scratch/said") != "$3"* ]]; then
        cat "$scratch/said"
        fail "$1 ${*:4} must write nothing, end with $2 and say '$3', and it ended with $status"
    fi
    runs=$((runs + 1))
}

# The program for lists.
refuses() { # STATUS WORDS WAY [FILE]
    refused_by list "$@"
}

# Writes a list, in which a tab is \t and a new line \n.
put_list() { # NAME TEXT
    printf '%b' "$2" > "$scratch/$1.tsv"
}

# Such a list must be refused in this line.
wrong() { # LINE WORDS TEXT
    put_list wrong "$3"
    refuses 1 "list: $scratch/wrong.tsv: line $1: $2" to-script "$scratch/wrong.tsv"
}

# The list of an admitted script, by its bytes: its lines in the order of the script.
lines_of() { # SCRIPT
    od -An -v -tu1 -w1 "$1" | awk '
        function number(at) { return byte[at] + 256 * (byte[at + 1] + 256 * (byte[at + 2] + 256 * byte[at + 3])) }
        { byte[NR - 1] = $1 }
        END {
            printf "lengths\t%d\t%d\n", number(1), number(5)
            for (at = 9; at < NR - 1; at += byte[at] == 77 ? 6 : 13)
                if (byte[at] == 77)
                    printf "mark\t%s\t%d\n", byte[at + 1] == 0 ? "A" : "B", number(at + 2)
                else
                    printf "%d\t%d\t%d\t%s\n", number(at + 1), number(at + 5), number(at + 9),
                        byte[at] == 68 ? "+" : "-"
        }'
}

# The same list with its marks behind its matches, as to-list writes it.
marks_last() { # LIST
    sed '/^mark/d' "$1"
    sed -n '/^mark/p' "$1"
}

# A refusal that is found in a script's bytes.
is_of_bytes() { # NUMBER
    [ "$1" -le 10 ] || { [ "$1" -ge 19 ] && [ "$1" -le 21 ]; }
}

echo 'bindings: every example to its list and back'
while read -r script; do
    read -r word number place < "${script%.script}.txt"
    if [ "$word" = refused ] && is_of_bytes "$number"; then
        refuses 1 "list: $script: refused as " to-list "$script"
        grep -qF " ($number) at byte $place: " "$scratch/said" || fail "list refuses $script otherwise"
        continue
    fi
    lines_of "$script" > "$scratch/there.tsv"
    marks_last "$scratch/there.tsv" > "$scratch/ordered.tsv"
    turns "$scratch/ordered.tsv" to-list "$script"
    # Only a script that has its matches before its marks comes back byte for byte.
    if cmp -s "$scratch/there.tsv" "$scratch/ordered.tsv"; then
        turns "$script" to-script "$scratch/there.tsv"
    else
        "$scratch/list" to-script "$scratch/there.tsv" > "$scratch/ordered.script"
        turns "$scratch/ordered.tsv" to-list "$scratch/ordered.script"
    fi
done < "$scratch/examples"

echo 'bindings: lists to scripts and back'
matches() { # COUNT
    for ((left = 0; left < $1; left++)); do
        printf '%s\t%s\t%s\t-\n' "$left" "$((2 * left))" "$((left + 1))"
    done
}
put_list edges 'lengths\t1000000000\t1\n999999999\t0\t1\t-\n0\t0\t1\t+\n'
marks() { # COUNT
    for ((left = 0; left < $1; left++)); do
        printf 'mark\t%s\t%s\n' "$([ $((left % 2)) -eq 0 ] && echo A || echo B)" "$left"
    done
}
put_list most "lengths\t9999\t9999\n$(matches 2048)\n$(marks 512)\n"
put_list none 'lengths\t1\t1\n'
put_list marked 'lengths\t10\t20\n2\t3\t5\t-\nmark\tB\t20\nmark\tA\t0\nmark\tA\t10\nmark\tA\t10\n'
put_list marks 'lengths\t10\t20\nmark\tB\t20\nmark\tA\t0\n'
for name in edges most none marked marks; do
    "$scratch/list" to-script "$scratch/$name.tsv" > "$scratch/$name.script"
    turns "$scratch/$name.tsv" to-list "$scratch/$name.script"
done
turns examples/two-matches.script to-script examples/two-matches.tsv
turns examples/two-matches.script to-script < examples/two-matches.tsv
turns examples/two-matches.tsv to-list < examples/two-matches.script

echo 'bindings: the same list in other words'
while read -r text; do
    put_list same "$text"
    turns examples/two-matches.script to-script "$scratch/same.tsv"
done << 'END'
lengths\t10\t10\n0\t0\t6\t+\n2\t3\t5\t-
lengths\t10\t10\r\n0\t0\t6\t+\r\n2\t3\t5\t-\r\n
# mine\n\nlengths\t10\t10\n  \t\n0\t0\t6\t+\n#2\t3\t5\t+\n2\t3\t5\t-\n\n
\xef\xbb\xbflengths\t10\t10\n0\t0\t6\t+\n2\t3\t5\t-\n
#\xe9\nlengths\t010\t10\n0\t00\t6\t+\n2\t3\t5\t-\n
END

echo 'bindings: marks between the matches of a list'
while read -r text; do
    put_list same "$text"
    turns "$scratch/marked.script" to-script "$scratch/same.tsv"
done << 'END'
lengths\t10\t20\nmark\tB\t20\n2\t3\t5\t-\nmark\tA\t0\nmark\tA\t10\nmark\tA\t10\n
lengths\t10\t20\nmark\tB\t20\r\n# mine\nmark\tA\t00\r\nmark\tA\t10\nmark\tA\t10\n2\t3\t5\t-
END

echo 'bindings: both programs over a script with marks, whole and cut short at every byte'
for ((bytes = 0; bytes <= $(wc -c < "$scratch/marked.script"); bytes++)); do
    head -c "$bytes" "$scratch/marked.script" > "$scratch/cut.script"
    hold "$scratch/cut.script"
done

echo 'bindings: wrong lists'
good='lengths\t10\t10\n0\t0\t6\t+\n'
wrong 1 'the lengths are missing: begin the list with ' '0\t0\t6\t+\n'
wrong 3 'the lengths are missing: begin the list with ' '# mine\n\nlengths 10 10\n'
wrong 1 'the count of fields is 2, not 3: write the word lengths, ' 'lengths\t10\n'
wrong 1 'the count of fields is 4, not 3: write the word lengths, ' 'lengths\t10\t10\t10\n'
wrong 1 'the letters of A, "", is no number: write digits alone' 'lengths\t\t10\n'
wrong 1 'the letters of B, "1e9", is no number: ' 'lengths\t10\t1e9\n'
wrong 1 'the letters of B, 4294967296, does not fit 32 bits: ' 'lengths\t10\t4294967296\n'
wrong 1 'refused as length out of range (5): ' 'lengths\t0\t10\n'
wrong 2 'refused as length out of range (5): ' '\nlengths\t10\t1000000001\n0\t0\t6\t+\n'
wrong 3 'the lengths come again: write a list for each ' "${good}lengths\t10\t10\n"
wrong 3 'the count of fields is 1, not 4: write left-A, ' "${good}2 3 5 -\n"
wrong 3 'the count of fields is 3, not 4: write left-A, ' "${good}2\t3\t5\n"
wrong 3 'the count of fields is 5, not 4: write left-A, ' "${good}2\t3\t5\t-\t\n"
wrong 3 'left-A, "left", is no number: ' "${good}left\t3\t5\t-\n"
wrong 3 'left-B, "+3", is no number: ' "${good}2\t+3\t5\t-\n"
wrong 5 'the length, "5,000", is no number: ' "${good}#\n\n2\t3\t5,000\t-\n"
wrong 3 'left-A, 4294967296, does not fit 32 bits: ' "${good}4294967296\t3\t5\t-\n"
wrong 3 'left-B, 99999999999999999999, does not fit 32 bits: ' "${good}2\t99999999999999999999\t5\t-\n"
wrong 3 'the direction, "x", is none: write + for ' "${good}2\t3\t5\tx\n"
wrong 3 'the direction, "", is none: write + for ' "${good}2\t3\t5\t\n"
wrong 3 'the direction, "1", is none: write + for ' "${good}2\t3\t5\t1\r\n"
wrong 3 'refused as empty match (7) at record 2: ' "${good}2\t3\t0\t-\n"
wrong 5 'refused as beyond A (8) at record 2: ' "${good}\n#\n5\t3\t6\t-\n9\t9\t9\t+\n"
wrong 3 'refused as beyond A (8) at record 2: ' "${good}1\t3\t4294967295\t-\n"
wrong 4 'refused as beyond B (9) at record 3: ' "${good}2\t3\t5\t-\n0\t5\t6\t-\n"
wrong 2051 'refused as too many matches (6): ' "# mine\nlengths\t9999\t9999\n$(matches 2050)\n"
wrong 1 'the lengths are missing: begin the list with ' 'mark\tA\t1\n'
wrong 3 'the count of fields is 2, not 3: write the word mark, ' "${good}mark\tA\n"
wrong 3 'the count of fields is 1, not 3: write the word mark, ' "${good}mark A 1\n"
wrong 3 'the count of fields is 4, not 3: write the word mark, ' "${good}mark\tA\t1\t\n"
wrong 3 'the side, "a", is none: write A or B' "${good}mark\ta\t1\n"
wrong 3 'the side, "0", is none: write A or B' "${good}mark\t0\t1\n"
wrong 3 'the position, "-1", is no number: ' "${good}mark\tA\t-1\n"
wrong 3 'the position, 4294967296, does not fit 32 bits: ' "${good}mark\tA\t4294967296\n"
wrong 4 'refused as mark beyond (21) at mark 2: ' "${good}mark\tA\t10\nmark\tA\t11\n2\t3\t5\t-\n"
wrong 3 'refused as mark beyond (21) at mark 1: ' "${good}mark\tB\t4294967295\n"
wrong 4 'refused as beyond A (8) at record 2: ' "${good}mark\tA\t11\n6\t3\t5\t-\n"
wrong 515 'refused as too many marks (19): ' "${good}$(marks 514)\n"
put_list empty '\n# nothing\n'
refuses 1 "list: $scratch/empty.tsv: the list is empty: begin it with " to-script "$scratch/empty.tsv"
refuses 1 'list: standard input: line 1: the lengths are missing: ' to-script < examples/two-matches.script
refuses 1 'list: standard input: refused as headless (1) at byte 0: ' to-list < /dev/null

echo 'bindings: wrong calls of the program for lists'
refuses 1 "list: $scratch/far.tsv: No such file" to-script "$scratch/far.tsv"
refuses 1 "list: $scratch: Is a directory" to-list "$scratch"
refuses 2 'usage: list to-script '
refuses 2 'usage: list to-script ' to-table examples/two-matches.tsv
refuses 2 'usage: list to-script ' to-script examples/two-matches.tsv my.script
[[ $("$scratch/list" to-script --help) = 'usage: list to-script '* ]] || fail 'list --help does not tell how it is used'
if "$scratch/list" to-script "$scratch/none.tsv" > /dev/full 2> "$scratch/said"; then
    fail 'list does not see that it cannot write'
fi
grep -q '^list: standard output: No space left' "$scratch/said" || fail 'list does not say that it cannot write'
runs=$((runs + 2))

# Runs a program for the backbone: it must write just what "$scratch/wanted" has.
prints_backbone() { # PROGRAM PRICE [SCRIPT]
    "$scratch/$1" "${@:2}" > "$scratch/got" 2> "$scratch/said" && diff "$scratch/wanted" "$scratch/got" || {
        cat "$scratch/said"
        fail "$1 ${*:2} differs"
    }
    runs=$((runs + 1))
}

# Both programs must print the slow program's backbone, or refuse the script as it does.
hold_backbone() { # PRICE SCRIPT
    local word number place
    compare/target/release/slow chain "$1" < "$2" > "$scratch/wanted"
    read -r word number place < "$scratch/wanted"
    for program in chain_in_c chain_in_rust; do
        if [ "$word" = refused ]; then
            refused_by "$program" 1 "chain: $2: refused " "$1" "$2"
            grep -qE "refused (with|as .*) \(?$number\)? at (byte )?$place: " "$scratch/said" ||
                fail "$program refuses $2 otherwise"
        else
            prints_backbone "$program" "$1" "$2"
        fi
    done
}

echo 'bindings: the backbone of every example, in C and in Rust'
backbones=0
while read -r script; do
    hold_backbone 0 "$script"
    hold_backbone 1 "$script"
    if [ -f "${script%.script}.chain.txt" ]; then
        cmp "${script%.script}.chain.txt" "$scratch/wanted"
        backbones=$((backbones + 1))
    fi
done < "$scratch/examples"
[ "$backbones" -ge "$least_backbones" ] || fail "$backbones backbones are kept, not $least_backbones"
runs=$((runs + backbones))

echo 'bindings: the backbone at the highest price, from standard input, and of as many rows as there is room for'
put_list fitting 'lengths\t1000000\t1000000\n0\t0\t500000\t+\n0\t1\t500000\t+\n'
put_list larger 'lengths\t1000000\t1000000\n0\t0\t500001\t+\n0\t1\t500001\t+\n'
for name in fitting larger; do
    "$scratch/list" to-script "$scratch/$name.tsv" > "$scratch/$name.script"
done
hold_backbone 1000 examples/real/pylori-e.script
for program in chain_in_c chain_in_rust; do
    cp examples/two-matches.chain.txt "$scratch/wanted"
    prints_backbone "$program" 1 < examples/two-matches.script
    { echo 'score 500000 rows 1000000 chain 500000' && seq 500000 | awk '{ print $1, $1 - 1, $1 - 1, 1 }'; } \
        > "$scratch/wanted"
    prints_backbone "$program" 1 "$scratch/fitting.script"
    refused_by "$program" 1 "chain: $scratch/larger.script: refused " 1 "$scratch/larger.script"
    grep -qE 'refused (with|as .*) \(?12\)?( at 0)?: ' "$scratch/said" || fail "$program does not say 12"
done

echo 'bindings: wrong calls of the programs for the backbone'
for program in chain_in_c chain_in_rust; do
    refused_by "$program" 1 "chain: $scratch/far.script: No such file" 1 "$scratch/far.script"
    refused_by "$program" 1 "chain: $scratch: Is a directory" 1 "$scratch"
    refused_by "$program" 1 'chain: standard input: refused ' 1 < /dev/null
    refused_by "$program" 2 'usage: chain PRICE '
    refused_by "$program" 2 'usage: chain PRICE ' 1 examples/two-matches.script 1
    for price in '' x 1x -1 +1 ' 1' 1001 4294967296 18446744073709551616; do
        refused_by "$program" 2 'usage: chain PRICE ' "$price" examples/two-matches.script
    done
    if "$scratch/$program" 1 examples/two-matches.script > /dev/full 2> "$scratch/said"; then
        fail "$program does not see that it cannot write"
    fi
    grep -q '^chain: standard output: No space left' "$scratch/said" || fail "$program does not say that it cannot write"
    runs=$((runs + 1))
done

# Lays markers, written as for the programs, on a script by hand, and makes "$scratch/laid.script" of it.
lay() { # SCRIPT [SIDE POSITION]..
    {
        "$scratch/list" to-list "$1"
        [ $# -eq 1 ] || printf 'mark\t%s\t%s\n' "${@:2}"
    } > "$scratch/laid.tsv"
    "$scratch/list" to-script "$scratch/laid.tsv" > "$scratch/laid.script"
}

# The count of pieces that the slow program says.
pieces_of() { # SCRIPT
    compare/target/release/slow < "$1" | sed -nE '2s/.* pieces ([0-9]+) .*/\1/p'
}

# Where the matches carry markers to, from the list in "$scratch/laid.tsv".
carried() { # [SIDE POSITION]..
    while [ $# -gt 0 ]; do
        awk -F '\t' -v side="$1" -v at="$2" '
            $1 == "lengths" || $1 == "mark" { next }
            {
                number++
                here = side == "A" ? $1 : $2
                there = side == "A" ? $2 : $1
                if (here <= at + 0 && at + 0 <= here + $3) {
                    found = 1
                    print side, at, "match", number, side == "A" ? "B" : "A",
                        $4 == "+" ? there + (at - here) : there + $3 - (at - here)
                }
            }
            END { if (!found) print side, at, "no match" }' "$scratch/laid.tsv"
        shift 2
    done
}

# Both programs for markers must count the slow program's rows and carry each marker as the list says.
hold_markers() { # SCRIPT [SIDE POSITION]..
    lay "$@"
    { echo "rows $(pieces_of "$1") $(pieces_of "$scratch/laid.script")" && carried "${@:2}"; } > "$scratch/wanted"
    for program in markers_in_c markers_in_rust; do
        "$scratch/$program" "$@" > "$scratch/got" 2> "$scratch/said" && diff "$scratch/wanted" "$scratch/got" || {
            cat "$scratch/said"
            fail "$program $* differs"
        }
        runs=$((runs + 1))
    done
}

echo 'bindings: markers on scripts, in C and in Rust'
hold_markers examples/two-matches.script A 1 B 7 A 9
printf '%s\n' 'rows 8 9' 'A 1 match 1 B 1' 'B 7 match 2 A 3' 'A 9 no match' | cmp - "$scratch/got"
hold_markers examples/two-matches.script
for ((position = 0; position <= 10; position++)); do
    hold_markers examples/two-matches.script A "$position" B "$position"
done
hold_markers "$scratch/marked.script" B 4 A 3
hold_markers examples/no-matches.script A 0 B 1
hold_markers examples/real/human-orang.script A 1500 A 1500 B 16499 A 16569 B 5000
hold_markers examples/real/pylori-e.script A 80000 B 81000 A 82000 B 83000

echo 'bindings: wrong markers'
for program in markers_in_c markers_in_rust; do
    script=examples/two-matches.script
    refused_by "$program" 1 "markers: $script: marker 2: refused " "$script" A 10 A 11 B 11
    grep -q 'check its position, which is counted from 0, ' "$scratch/said" || fail "$program does not say what to do"
    refused_by "$program" 1 "markers: $scratch/marked.script: marker 1: refused " "$scratch/marked.script" B 21
    mapfile -t many < <(printf 'A\n1\n%.0s' {1..513})
    refused_by "$program" 1 "markers: $script: refused " "$script" "${many[@]}"
    grep -qE 'refused (with|as .*) \(?19\)?( at 0)?: ' "$scratch/said" || fail "$program does not say 19"
    refused=examples/refused-8-beyond-a.script
    refused_by "$program" 1 "markers: $refused: refused " "$refused" A 1
    refused_by "$program" 1 "markers: $scratch/far.script: No such file" "$scratch/far.script" A 1
    refused_by "$program" 1 "markers: $scratch: Is a directory" "$scratch" A 1
    refused_by "$program" 2 'usage: markers SCRIPT '
    refused_by "$program" 2 'usage: markers SCRIPT ' "$script" A
    refused_by "$program" 2 'usage: markers SCRIPT ' "$script" C 1
    for position in '' x 1x -1 +1 ' 1' 4294967296 18446744073709551616; do
        refused_by "$program" 2 'usage: markers SCRIPT ' "$script" A "$position"
    done
    if "$scratch/$program" "$script" A 1 > /dev/full 2> "$scratch/said"; then
        fail "$program does not see that it cannot write"
    fi
    grep -q '^markers: standard output: No space left' "$scratch/said" ||
        fail "$program does not say that it cannot write"
    runs=$((runs + 1))
done

# Where the markers in a file stand on the other side, by the bytes of the script and the slow program's table. Each
# match is tried on each marker, and each of its rows.
laid() { # SCRIPT SIDE POSITIONS
    lines_of "$1" > "$scratch/laid.tsv"
    compare/target/release/slow < "$1" | sed -n '/ [+-]$/p' > "$scratch/laid.rows"
    sed 's/\r$//' "$3" | sed -n '/^[0-9]/p' | sort -n > "$scratch/laid.positions"
    awk -v side="$2" '
        kind == "list" && NF == 4 {
            n++
            here[n] = side == "A" ? $1 : $2
            there[n] = side == "A" ? $2 : $1
            size[n] = $3
            reversed[n] = $4 == "-"
        }
        kind == "rows" {
            left[FNR] = side == "A" ? $2 : $3
            right[FNR] = left[FNR] + $4
            rows[$1] = rows[$1] " " FNR
        }
        kind == "positions" { at[++count] = $1 + 0 }
        function spans(m, k) { return here[m] <= at[k] && at[k] <= here[m] + size[m] }
        function place(m, k,   row, i) {
            for (i = split(rows[m], row, " "); i > 0; i--)
                if (left[row[i]] < at[k] && at[k] < right[row[i]])
                    return "row " row[i]
            return "cut"
        }
        END {
            for (k = 1; k <= count; k++) {
                for (m = 1; m <= n; m++)
                    spanned[k] += spans(m, k)
                kinds[spanned[k] < 2 ? spanned[k] + 0 : 2]++
            }
            print "markers", count + 0, "once", kinds[1] + 0, "several", kinds[2] + 0, "none", kinds[0] + 0
            for (m = 1; m <= n; m++)
                for (k = 1; k <= count; k++)
                    if (spans(m, k))
                        print side, at[k], "match", m, place(m, k), side == "A" ? "B" : "A",
                            reversed[m] ? there[m] + size[m] - (at[k] - here[m]) : there[m] + (at[k] - here[m])
            for (k = 1; k <= count; k++)
                if (!spanned[k])
                    print side, at[k], "no match"
        }' kind=list "$scratch/laid.tsv" kind=rows "$scratch/laid.rows" kind=positions "$scratch/laid.positions"
}

# Both programs that lay a set of markers must print this, with the file named and from standard input.
hold_laid() { # SCRIPT SIDE POSITIONS
    laid "$@" > "$scratch/wanted"
    for program in lay_in_c lay_in_rust; do
        "$scratch/$program" "$@" > "$scratch/got" 2> "$scratch/said" && diff "$scratch/wanted" "$scratch/got" &&
            "$scratch/$program" "$1" "$2" < "$3" | cmp - "$scratch/got" || {
            cat "$scratch/said"
            fail "$program $* differs"
        }
        runs=$((runs + 1))
    done
}

# The same for positions that are written here: a tab is \t and a new line \n.
lay_text() { # SCRIPT SIDE TEXT
    printf '%b' "$3" > "$scratch/positions"
    hold_laid "$1" "$2" "$scratch/positions"
}

echo 'bindings: sets of markers laid on the other genome, in C and in Rust'
script=examples/two-matches.script
lay_text "$script" A '9\n1\n4\n5\n'
printf '%s\n' 'markers 4 once 1 several 2 none 1' 'A 1 match 1 row 1 B 1' 'A 4 match 1 cut B 4' \
    'A 5 match 1 row 4 B 5' 'A 4 match 2 cut B 6' 'A 5 match 2 row 7 B 5' 'A 9 no match' | cmp - "$scratch/got"
for side in A B; do
    lay_text "$script" "$side" "$(seq 0 10)"
    lay_text "$script" "$side" ''
    lay_text "$script" "$side" '\n# none\n \t\r\n'
    lay_text "$script" "$side" '# mine\r\n\r\n10\r\n007\r\n3\r\n\n3\n#4\n0'
    lay_text "$scratch/marked.script" "$side" "$(seq 10 -1 0)"
    lay_text examples/two-matches-and-marks.script "$side" "$(seq 0 10)"
    lay_text examples/no-matches.script "$side" '1\n0\n'
    lay_text examples/no-matches.script "$side" ''
    lay_text examples/2048-matches.script "$side" "$(seq 0 40)"
    lay_text examples/3000-pieces.script "$side" "$(seq 0 50 1000)"
    lay_text examples/real/human-orang.script "$side" "$(seq 0 97 16499)"
    lay_text examples/real/pylori-e.script "$side" "$(seq 0 499 265111)"
done

echo 'bindings: the markers that are kept'
markers=examples/real/pylori-b.hindiii
hold_laid examples/real/pylori-b.script A "$markers.txt"
cmp "$markers.laid.txt" "$scratch/got"
# Laid back from where they were carried to, they stand where they were.
awk '/ match / { print $NF }' "$markers.laid.txt" > "$scratch/positions"
hold_laid examples/real/pylori-b.script B "$scratch/positions"
sort -u "$scratch/got" > "$scratch/back"
awk '/ match / { there = $(NF - 1) " " $NF; $(NF - 1) = $1; $NF = $2; print there, substr($0, length($1 $2) + 3) }' \
    "$markers.laid.txt" | sort -u | comm -23 - "$scratch/back" > "$scratch/lost"
[ ! -s "$scratch/lost" ] || fail "the markers of $markers.laid.txt are not carried back: $(head -n 1 "$scratch/lost")"
runs=$((runs + 2))

echo 'bindings: wrong sets of markers'
for program in lay_in_c lay_in_rust; do
    positions=$scratch/positions
    while IFS='|' read -r number words text; do
        printf '%b' "$text" > "$positions"
        refused_by "$program" 1 "lay_markers: $positions: line $number: $words" "$script" A "$positions"
    done << 'END'
1|this is no position: write digits alone, and one position in a line|x
2|this is no position: |1\n1x\n
3|this is no position: |\n#\n-1\n1 2\n
1|this is no position: | 1
1|this is no position: |1 \n
1|this is no position: |+1\n11\n
2|this is no position: |10\r\n1\r\r\n
1|this is no position: |1\0
1|11 is above the 10 letters of A: check the position, which is counted from 0, and the side|11\nx
4|4294967297 is above the 10 letters of A: |10\n\n10\n4294967297
1|00018446744073709551617 is above the 10 letters of A: |00018446744073709551617\n
END
    echo 2 > "$positions"
    refused_by "$program" 1 'lay_markers: standard input: line 1: 2 is above the 1 letters of B: ' \
        "$scratch/edges.script" B < "$positions"
    refused=examples/refused-8-beyond-a.script
    refused_by "$program" 1 "lay_markers: $refused: refused " "$refused" A "$positions"
    refused_by "$program" 1 "lay_markers: $scratch/larger.script: refused " "$scratch/larger.script" A "$positions"
    grep -qE 'refused (with|as .*) \(?12\)?( at 0)?: ' "$scratch/said" || fail "$program does not say 12"
    refused_by "$program" 1 "lay_markers: $scratch/far.script: No such file" "$scratch/far.script" A "$positions"
    refused_by "$program" 1 "lay_markers: $scratch: Is a directory" "$scratch" A "$positions"
    refused_by "$program" 1 "lay_markers: $scratch/far.txt: No such file" "$script" A "$scratch/far.txt"
    refused_by "$program" 1 "lay_markers: $scratch: Is a directory" "$script" A "$scratch"
    refused_by "$program" 2 'usage: lay_markers SCRIPT '
    refused_by "$program" 2 'usage: lay_markers SCRIPT ' "$script"
    refused_by "$program" 2 'usage: lay_markers SCRIPT ' "$script" C "$positions"
    refused_by "$program" 2 'usage: lay_markers SCRIPT ' "$script" '' "$positions"
    refused_by "$program" 2 'usage: lay_markers SCRIPT ' "$script" A "$positions" "$positions"
    if "$scratch/$program" "$script" A "$positions" > /dev/full 2> "$scratch/said"; then
        fail "$program does not see that it cannot write"
    fi
    grep -q '^lay_markers: standard output: No space left' "$scratch/said" ||
        fail "$program does not say that it cannot write"
    runs=$((runs + 1))
done

echo 'bindings: the sites of an enzyme'
ln -s "$PWD/examples/real/sites.py" "$scratch/sites"
printf '%b' '>one a record\nacgAAG\nCTTaag\n>two\ncttaagcttaagctt\n' > "$scratch/sites.fasta"
printf '%s\n' 6 18 24 | cmp - <("$scratch/sites" find AAGCTT "$scratch/sites.fasta")
printf '%s\n' 'markers 4 once 2 several 1 none 1' 'A 1 match 1 row 1 B 18' 'A 2 match 1 cut B 17' \
    'A 5 match 1 row 1 B 18' 'A 1 match 2 row 2 B 6' 'A 9 no match' > "$scratch/laid.txt"
echo '2 of 3 carried markers are at a site; 2 of 3 are reached' |
    cmp - <("$scratch/sites" count aagctt "$scratch/sites.fasta" < "$scratch/laid.txt")
runs=$((runs + 2))
for site in AAGCTA AAGC GANTC ''; do
    refused_by sites 1 "sites: '$site' is no site of A, C, G and T that " find "$site" "$scratch/sites.fasta"
done
refused_by sites 1 "sites: $scratch/laid.txt: not a FASTA file" find AAGCTT "$scratch/laid.txt"
refused_by sites 1 "sites: $scratch/far.fasta: No such file" count AAGCTT "$scratch/far.fasta"
refused_by sites 2 'usage: sites.py find SITE ' find AAGCTT

echo "bindings: $runs runs, 0 differences"
