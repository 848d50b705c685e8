#!/usr/bin/env bash
# Makes the scripts of this folder again, from Debian's packages on, holds each to the letters of its two sequences, and
# compares it with the one kept here. So it does with the sites of an enzyme, and counts those that are laid on a site.
# The packages are fetched and unpacked, not installed.
set -euo pipefail
export LC_ALL=C
kept=$(cd "$(dirname "${BASH_SOURCE[0]}")" && pwd)
work=$(mktemp -d)
trap 'rm -rf "$work"' EXIT
cd "$work"

apt-cache show mummer minimap2 >/dev/null 2>&1 || apt-get update -qq
apt-get download -qq mummer minimap2
for package in ./*.deb; do
    dpkg-deb --extract "$package" .
done
gunzip --keep usr/share/doc/minimap2/test/MT-*.fa.gz
mitochondria=usr/share/doc/minimap2/test
slices=usr/share/doc/mummer/examples/input

make_script() { # NAME LEAST_LENGTH A B
    usr/bin/mummer -maxmatch -b -c -l "$2" "$3" "$4" 2>mummer.log >"$1.matches" || { cat mummer.log; false; }
    "$kept/mummer_to_script.py" convert "$3" "$4" <"$1.matches" >"$1.script"
    echo "$1: $("$kept/mummer_to_script.py" check "$3" "$4" <"$1.script")"
    cmp "$1.script" "$kept/$1.script"
}

make_sites() { # NAME ENZYME SITE A B
    "$kept/sites.py" find "$3" "$4" >"$1.$2.txt"
    cmp "$1.$2.txt" "$kept/$1.$2.txt"
    echo "$1.$2: $("$kept/sites.py" count "$3" "$5" <"$kept/$1.$2.laid.txt")"
}

make_script human-orang 11 "$mitochondria/MT-human.fa" "$mitochondria/MT-orang.fa"
make_script human-orang-refused 10 "$mitochondria/MT-human.fa" "$mitochondria/MT-orang.fa"
make_script pylori-b 15 "$slices/H_pylori26695_Bslice.fasta" "$slices/H_pyloriJ99_Bslice.fasta"
make_script pylori-e 36 "$slices/H_pylori26695_Eslice.fasta" "$slices/H_pyloriJ99_Eslice.fasta"
make_sites pylori-b hindiii AAGCTT "$slices/H_pylori26695_Bslice.fasta" "$slices/H_pyloriJ99_Bslice.fasta"
echo 'all scripts and sites are the ones kept here'
