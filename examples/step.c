int A[96];
int B[96];
unsigned h[16];
void step(void) {
    for (int t = 0; t < 10; t++) {
        for (int i = 1; i < 95; i++) {
            B[i] = A[i - 1] + 2 * A[i] + A[i + 1];
        }
        for (int j = 1; j < 95; j++) {
            A[j] = B[j];
        }
    }
    for (int i = 0; i < 96; i++) {
        h[A[i] & 15] += 1u;
    }
}
