#!/usr/bin/env bash
# How long the run of a kernel takes in the built tests of `species_meaning`, beside the same kernel
# compiled by `gcc -O0`: a matrix product and a stencil, with the first values set by the kernel itself.
# Prints the seconds of processor of each, how many elements are accessed in a second, and the ratio.
# Usage: bench/meaning.sh, after `rt test` in crates/species_meaning
set -eu
top="$(CDPATH='' cd -- "$(dirname -- "$(readlink -f -- "${BASH_SOURCE[0]}")")/.." && pwd)"
tests="$top/crates/species_meaning/out/species_meaning_tests"
folder="$(mktemp -d)"
trap 'rm -rf "$folder"' EXIT

cat > "$folder/product.c" <<'C'
int X[128][128], M[128][128], O[128][128];
int main(void) {
    for (int n = 0; n < 20; n++) {
        for (int i = 0; i < 128; i++)
            for (int j = 0; j < 128; j++) { M[i][j] = i; O[i][j] = j + 1; }
        for (int i = 0; i < 128; i++)
            for (int j = 0; j < 128; j++)
                for (int k = 0; k < 128; k++) X[i][j] += M[i][k] * O[k][j];
    }
    return X[0][0];
}
C
cat > "$folder/stencil.c" <<'C'
int X[128][128], M[128][128];
int main(void) {
    for (int n = 0; n < 20; n++) {
        for (int i = 0; i < 128; i++)
            for (int j = 0; j < 128; j++) M[i][j] = i;
        for (int i = 0; i < 64; i++)
            for (int j = 1; j < 127; j++)
                for (int k = 1; k < 127; k++)
                    X[j][k] = (M[j - 1][k] + M[j + 1][k] + M[j][k - 1] + M[j][k + 1] + M[j][k]) / 5;
    }
    return X[0][0];
}
C
for name in product stencil; do
    gcc -O0 -o "$folder/$name" "$folder/$name.c"
done

python3 - "$tests" "$folder" <<'PY'
import resource, subprocess, sys
tests, folder = sys.argv[1:]

def seconds(command, times):
    """The least seconds of processor that the command takes."""
    best = None
    for _ in range(times):
        before = resource.getrusage(resource.RUSAGE_CHILDREN)
        subprocess.run(command, check=True, stdout=subprocess.DEVNULL)
        after = resource.getrusage(resource.RUSAGE_CHILDREN)
        took = after.ru_utime + after.ru_stime - before.ru_utime - before.ru_stime
        best = took if best is None else min(best, took)
    return best

for name, test, accesses in (
    ("product", "a_matrix_product", 2 * 128 ** 2 + 4 * 128 ** 3),
    ("stencil", "a_stencil", 128 ** 2 + 64 * 126 ** 2 * 6),
):
    run = seconds([tests, "tests::" + test], 5)
    c = seconds([folder + "/" + name], 3) / 20
    print("%s: %d accesses in %.3f s, %.1f million a second; gcc -O0 %.4f s, ratio %.1f"
          % (name, accesses, run, accesses / run / 1e6, c, run / c))
PY
