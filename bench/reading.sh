#!/usr/bin/env bash
# How time and memory of reading a program in pieces grow with its length, beside `gcc -fsyntax-only`
# and `clang -fsyntax-only` on the same bytes. Prints a line for each input: its size, what became of
# it, seconds and peak memory of each, memory for each byte, and the ratios of the seconds.
# It builds a program of its own over the crates that read, in a copy of the repository.
# Usage: bench/reading.sh [FOLDER to keep the copy and the inputs in, else they are removed]
set -eu
top="$(CDPATH='' cd -- "$(dirname -- "$(readlink -f -- "${BASH_SOURCE[0]}")")/.." && pwd)"
if [ $# -gt 0 ]; then
    folder="$1"
    mkdir -p "$folder"
else
    folder="$(mktemp -d)"
    trap 'rm -rf "$folder"' EXIT
fi

copy="$folder/copy"
program="$copy/crates/reading/out/reading"
if [ ! -x "$program" ]; then
    mkdir -p "$copy/crates"
    cp "$top/crates.txt" "$top/HANDLES" "$copy"
    for crate in species_ast species_io species_grammar species_lexer species_parser; do
        mkdir -p "$copy/crates/$crate"
        (cd "$top/crates/$crate" && tar cf - --exclude=./out .) | tar xf - -C "$copy/crates/$crate"
    done
    grep -E '^species_(ast|io|grammar|lexer|parser):' "$top/crates.txt" > "$copy/crates.txt"
    (cd "$copy" && rt new crates/reading start_io > /dev/null)
    echo 'reading: species_ast species_io species_lexer species_parser' >> "$copy/crates.txt"
    rm -f "$copy/crates/reading/stdin" "$copy/crates/reading/stdout" "$copy/crates/reading/src/clock.rt"
    cat > "$copy/crates/reading/src/main.rt" <<'RT'
//! Reads a program in pieces, and tells what became of it by its status.
#![tactic(auto)]

use species_io::{StdSource, read_each};
use species_lexer::{CutRefusal, Cutter};
use species_parser::{TableRefusal, parse_table};
use std::alloc::Global;
use std::process::ExitCode;

fn finished(alloc: Global, cutter: Cutter) -> u8 {
    match cutter.finish() {
        Ok(table) => match parse_table(alloc, &table) {
            Ok(_) => 0,
            Err(TableRefusal::Load(_)) => 2,
            Err(TableRefusal::Syntax(_)) => 3,
            Err(TableRefusal::Memory) => 6,
        },
        Err(CutRefusal::Lex(_)) => 1,
        Err(CutRefusal::Memory) => 6,
    }
}

fn main(rt: HostRuntime) -> ExitCode {
    let alloc = rt.alloc();
    let mut cutter = Cutter::new(alloc);
    match read_each(&mut StdSource::new(rt.stdin()), 4194304, &mut cutter) {
        Ok(()) => ExitCode::from(finished(alloc, cutter)),
        Err(_) => ExitCode::from(5),
    }
}
RT
    (cd "$copy/crates/reading" && rt run < /dev/null > /dev/null) || true
fi

python3 - "$folder" <<'PY'
import sys
folder = sys.argv[1]

def in_function(statement, size):
    head, end = "int a[512], b[512], c[512];\nvoid kernel(void) {\nint x;\n", "}\n"
    return head + statement * ((size - len(head) - len(end)) // len(statement)) + end

def defined(size):
    lines, used, number = [], 0, 0
    while True:
        text = "#define N%d %d\nint a%d[N%d];\n" % (number, number + 1, number, number)
        if used + len(text) > size - 40:
            return "".join(lines) + "void kernel(void) {\n}\n"
        lines.append(text)
        used += len(text)
        number += 1

ordinary = """    // each element of a
    for (int i = 1; i < 512; i++) {
        a[i] = b[i] * 3 + c[i - 1];
        if (a[i] > 0x1F) {
            b[i] += a[i]; /* and more */
        } else {
            c[i] = a[512 - i];
        }
    }
"""
for mib in (1, 2, 4):
    size = mib * 1048576
    texts = {
        "ordinary": in_function(ordinary, size),
        "defines": defined(size),
        "assignments": in_function("x=1;", size),
        "semicolons": in_function(";", size),
        "braces": in_function("{}", size),
        "brackets": in_function("[", size),
        "digits": in_function("1,", size),
        "comment": "/*" + "x" * (size - 5) + "*/\n",
        "name": "x" * (size - 1) + "\n",
    }
    for kind, text in texts.items():
        assert len(text) <= size
        open(f"{folder}/{kind}-{mib}.c", "w").write(text)
PY

measure() { # FILE COMMAND..: status, seconds and KiB
    python3 - "$@" <<'PY'
import os, resource, signal, subprocess, sys, time
begin = time.time()
run = subprocess.Popen(sys.argv[2:], stdin=open(sys.argv[1]), stdout=subprocess.DEVNULL, stderr=subprocess.DEVNULL, start_new_session=True)
try:
    status = run.wait(timeout=120)
except subprocess.TimeoutExpired:
    # a driver's own compiler goes on when the driver alone is stopped
    os.killpg(run.pid, signal.SIGKILL)
    run.wait()
    status = "late"
print(status, "%.3f %d" % (time.time() - begin, resource.getrusage(resource.RUSAGE_CHILDREN).ru_maxrss))
PY
}

printf '%-12s %8s %6s | %7s %8s %6s | %7s %8s | %7s %8s | %6s %6s\n' \
    input bytes status species KiB /byte gcc KiB clang KiB /gcc /clang
for kind in ordinary defines assignments semicolons braces brackets digits comment name; do
    for mib in 1 2 4; do
        file="$folder/$kind-$mib.c"
        bytes="$(wc -c < "$file")"
        read -r status seconds kib <<< "$(measure "$file" "$program")"
        read -r _ gcc_seconds gcc_kib <<< "$(measure "$file" gcc -fsyntax-only -w -x c -)"
        read -r _ clang_seconds clang_kib <<< "$(measure "$file" clang -fsyntax-only -w -x c -)"
        awk -v kind="$kind" -v bytes="$bytes" -v status="$status" -v s="$seconds" -v k="$kib" \
            -v gs="$gcc_seconds" -v gk="$gcc_kib" -v cs="$clang_seconds" -v ck="$clang_kib" 'BEGIN {
                printf "%-12s %8d %6s | %7.3f %8d %6.1f | %7.3f %8d | %7.3f %8d | %6.2f %6.2f\n",
                    kind, bytes, status, s, k, k * 1024 / bytes, gs, gk, cs, ck, s / gs, s / cs }'
    done
done
