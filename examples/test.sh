#!/usr/bin/env bash
# Runs the program on every script here and in real/: it must print just what the text beside the script says, and so must
# the slow Rust program. The scripts here are those that the slow program's package writes. Both must be built before.
# Then what the program and run do where a call fails, or where there is nothing to read or to write to.
# Last line: 'examples: N runs, 0 differences'.
set -euo pipefail
cd "$(dirname "${BASH_SOURCE[0]}")"
program=../target/bin/notchergrey
slow=../compare/target/release
made=$(mktemp -d)
trap 'rm -rf "$made"' EXIT

"$slow/write_examples" "$made"
for file in "$made"/*; do
    cmp "$file" "$(basename "$file")"
done

runs=0
for script in *.script real/*.script; do
    text=${script%.script}.txt
    "$program" <"$script" | cmp - "$text"
    "$slow/slow" <"$script" | cmp - "$text"
    runs=$((runs + 1))
done

# Runs a command: it must end with this status and have said just this on standard error, and "$made/printed" be empty.
says() { # STATUS TEXT COMMAND..
    local status=0
    "${@:3}" 2>"$made/said" || status=$?
    runs=$((runs + 1))
    if [ "$status $(cat "$made/said")" != "$1 $2" ] || [ -s "$made/printed" ]; then
        echo "examples: ${*:3}: must end with $1 and say '$2', but ended with $status and said '$(cat "$made/said")'" >&2
        exit 1
    fi
}

# Runs a command whose output, from standard input to standard output, must be that of an example.
prints() { # TEXT COMMAND..
    "${@:2}" | cmp - "$1"
    runs=$((runs + 1))
}

# A pipe that nobody reads any more, as number 5; one that is never written to, and busy, as number 6.
mkfifo "$made/unread" "$made/idle"
exec 4<>"$made/unread" 5>"$made/unread" 4<&- 6<>"$made/idle"
dd iflag=nonblock count=0 status=none <&6

# Where there is no answer the program says why. It has no exit status of its own.
: >"$made/printed"
says 0 'notchergrey: standard input: Is a directory' "$program" <. >"$made/printed"
says 0 'notchergrey: standard input: Bad file descriptor' "$program" <&- >"$made/printed"
says 0 'notchergrey: standard input: Resource temporarily unavailable' "$program" <&6 >"$made/printed"
says 0 'notchergrey: standard output: No space left on device' "$program" <two-matches.script >/dev/full
says 0 'notchergrey: standard output: Bad file descriptor' "$program" <two-matches.script >&-
says 0 'usage: notchergrey <SCRIPT; it takes no argument' "$program" two-matches.script </dev/null >"$made/printed"
says 0 'notchergrey: standard output: Broken pipe' "$program" <two-matches.script >&5
trap '' PIPE
says 0 'notchergrey: standard output: Broken pipe' "$program" <two-matches.script >&5
trap - PIPE

# A busy input is waited for; so is a busy output, after a write that takes only a part of the text.
late() { sleep 0.2 && cat two-matches.script; }
busy_input() { dd iflag=nonblock count=0 status=none && "$program"; }
prints two-matches.txt busy_input < <(late)
busy_output() {
    { head -c 60000 /dev/zero && dd oflag=nonblock count=0 status=none </dev/null && "$program" <3000-pieces.script; } |
        { sleep 0.2 && tail -c +60001; }
}
prints 3000-pieces.txt busy_output

# run answers 0 for a table and for a refusal, and 1 where there is no answer.
run=$PWD/../run
mkdir "$made/a folder"
cp two-matches.script "$made/a folder/a script"
prints two-matches.txt bash "$run" two-matches.script
prints two-matches.txt bash "$run" <two-matches.script
prints two-matches.txt bash -c 'cd "$1" && bash "$2" "a folder/a script"' - "$made" "$run"
prints refused-8-beyond-a.txt bash "$run" refused-8-beyond-a.script
says 1 'run: no such file: nothing here' bash "$run" 'nothing here' </dev/null >"$made/printed"
says 1 'notchergrey: standard input: Is a directory' bash "$run" . >"$made/printed"
says 1 'run: standard input is closed' bash "$run" <&- >"$made/printed"
says 1 'notchergrey: standard output: No space left on device' bash "$run" two-matches.script >/dev/full
says 1 'run: standard output is closed' bash "$run" two-matches.script >&-
says 1 'notchergrey: standard output: Broken pipe' bash "$run" two-matches.script >&5

# A check that fails leaves no program. rt is played by a script that builds one, proves one crate and fails.
copy=$made/copy
mkdir -p "$copy/target/bin" "$copy/tools" "$copy/crates/notchergrey"
cp ../run "$copy"
cp /bin/true "$copy/target/bin/notchergrey"
cat >"$copy/crates.txt" <<'END'
# a floor: with a comment
script:
text:

refine: script
notchergrey: script refine io
END
cat >"$copy/tools/rt" <<'END'
#!/bin/sh
mkdir -p out
cp /bin/true out/notchergrey
echo 'crate script: modules loaded=0 checked=203'
echo 'logic=proved functions=9'
echo 'crate refine: modules loaded=0 checked=80'
echo 'logic=not-proved'
exit 1
END
chmod +x "$copy/tools/rt"
said='run: proving and building the program; the first time this takes some twenty minutes
run: proved 1 of 3 crates: script
crate script: modules loaded=0 checked=203
logic=proved functions=9
crate refine: modules loaded=0 checked=80
logic=not-proved
run: not proved, so there is no program to run'
for again in first second; do
    says 1 "$said" env PATH="$copy/tools:$PATH" bash "$copy/run" two-matches.script >"$made/printed"
    [ ! -e "$copy/target/bin/notchergrey" ] || { echo "examples: the $again failed check left a program" >&2; exit 1; }
done
echo "examples: $runs runs, 0 differences"
