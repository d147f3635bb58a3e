#!/usr/bin/env bash
# How time and memory of `species arcs` grow with its input, beside `cat`, `gcc -fsyntax-only` and
# `clang -fsyntax-only` on the same bytes. Prints one line for each input: its size, the status of the
# program, seconds of processor and peak memory of each, and the ratios of the seconds. A compiler that
# is missing is left out. Stops where the program has another status than the text asks for.
# Usage: bench/scale.sh [FOLDER to keep the inputs in, else they are removed]
set -eu
top="$(CDPATH='' cd -- "$(dirname -- "$(readlink -f -- "${BASH_SOURCE[0]}")")/.." && pwd)"
"$top/species" arcs < "$top/examples/copy.c" > /dev/null
program="$top/crates/species_tool/out/species_tool"
if [ $# -gt 0 ]; then
    folder="$1"
    mkdir -p "$folder"
else
    folder="$(mktemp -d)"
    trap 'rm -rf "$folder"' EXIT
fi
for compiler in gcc clang; do
    command -v "$compiler" > /dev/null || echo "$compiler is missing, and its columns have -"
done

python3 "$top/bench/scale.py" "$folder"

. "$top/bench/measure.sh"

printf '%-14s %9s %6s | %8s %8s | %8s %8s | %8s %8s | %8s %8s | %6s %6s\n' \
    input bytes status species KiB cat KiB gcc KiB clang KiB /gcc /clang
for input in accepted-1 accepted-2 accepted-4 refused-1 refused-2 refused-4 nests-1 nests-2 nests-4 references-512; do
    file="$folder/$input.c"
    case $input in
    refused-*) wanted=1 ;;
    *) wanted=0 ;;
    esac
    read -r status s sm < <(measure "$file" "$program" arcs)
    if [ "$status" != "$wanted" ]; then
        echo "$input: the program has status $status, and $wanted was to come" >&2
        exit 1
    fi
    read -r _ c cm < <(measure "$file" cat)
    read -r _ g gm < <(measure "$file" gcc -fsyntax-only -x c -)
    read -r _ l lm < <(measure "$file" clang -fsyntax-only -x c -)
    printf '%-14s %9d %6d | %8s %8s | %8s %8s | %8s %8s | %8s %8s | %6s %6s\n' \
        "$input" "$(stat -c %s "$file")" "$status" "$s" "$sm" "$c" "$cm" "$g" "$gm" "$l" "$lm" "$(ratio "$s" "$g")" "$(ratio "$s" "$l")"
done
