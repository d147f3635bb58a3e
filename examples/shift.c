int A[8];
void k(void) {
    for (int i = 3; i < 8; i++) {
        A[i] = A[i - 3];
    }
}
