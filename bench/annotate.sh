#!/usr/bin/env bash
# How time and memory of `species annotate` grow with its input, beside `clang -fsyntax-only` and
# `gcc -O2 -ftree-parallelize-loops=4 -floop-parallelize-all` on the same bytes. gcc writes its assembly
# to /dev/null, and is stopped after SECONDS of real time. Prints one line for each input: its size, the
# status of the program, how many lines of species it wrote, seconds of processor and peak memory of
# each, and the ratios of the seconds. What a compiler that is missing, fails or is stopped has is -.
# Stops where the program has another status than 0.
# Usage: bench/annotate.sh [FOLDER to keep the inputs in, else they are removed] [SECONDS, else 600]
set -eu
top="$(CDPATH='' cd -- "$(dirname -- "$(readlink -f -- "${BASH_SOURCE[0]}")")/.." && pwd)"
"$top/species" annotate < "$top/examples/copy.c" > /dev/null
program="$top/crates/species_tool/out/species_tool"
if [ $# -gt 0 ]; then
    folder="$1"
    mkdir -p "$folder"
else
    folder="$(mktemp -d)"
    trap 'rm -rf "$folder"' EXIT
fi
most="${2-600}"
for compiler in gcc clang; do
    command -v "$compiler" > /dev/null || echo "$compiler is missing, and its columns have -"
done

python3 "$top/bench/scale.py" "$folder"

. "$top/bench/measure.sh"

compiled() { # FILE COMMAND..: the same of a compiler, with - for one that fails or is stopped
    local status seconds memory
    read -r status seconds memory < <(measure "$@")
    case $status in
    0) echo "$seconds $memory" ;;
    *) echo '- -' ;;
    esac
}

printf '%-14s %9s %6s %6s | %8s %8s | %8s %8s | %8s %8s | %6s %6s\n' \
    input bytes status lines species KiB clang KiB gcc KiB /clang /gcc
for input in nests-small nests-1 nests-2 nests-4 deep-equal deep-different; do
    file="$folder/$input.c"
    read -r status s sm < <(measure "$file" "$program" annotate)
    if [ "$status" != 0 ]; then
        echo "$input: the program has status $status, and 0 was to come" >&2
        exit 1
    fi
    lines="$("$program" annotate < "$file" | grep -c '#pragma species')"
    read -r l lm < <(compiled "$file" clang -fsyntax-only -x c -)
    read -r g gm < <(compiled "$file" timeout "$most" gcc -O2 -ftree-parallelize-loops=4 -floop-parallelize-all -S -o /dev/null -x c -)
    printf '%-14s %9d %6d %6d | %8s %8s | %8s %8s | %8s %8s | %6s %6s\n' \
        "$input" "$(stat -c %s "$file")" "$status" "$lines" "$s" "$sm" "$l" "$lm" "$g" "$gm" "$(ratio "$s" "$l")" "$(ratio "$s" "$g")"
done
