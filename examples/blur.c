int A[66];
int B[66];
void blur(void) {
    for (int i = 1; i < 65; i++) {
        B[i] = A[i - 1] + 2 * A[i] + A[i + 1];
    }
}
