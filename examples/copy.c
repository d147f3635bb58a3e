int A[64];
int B[64];
void k(void) {
    for (int i = 0; i < 64; i++) {
        B[i] = 2 * A[i];
    }
}
