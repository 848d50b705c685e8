#!/bin/sh
# Builds the doors of an inner crate and a program that calls them, and runs it: sh compare/by_door.sh PROGRAM DOORS,
# where PROGRAM is a folder with a main.rs, as compare/cut_set or bench/windows, and DOORS a crate, as cut_set_doors.
set -e
cd "$(dirname "$0")/.."
program=$1
doors=$2
shift 2
bash archive "$doors" > /dev/null
mkdir -p "target/$(dirname "$program")"
rustc -O --edition 2021 -L target/staticlib "$program/main.rs" -o "target/$program"
exec "target/$program" "$@"
