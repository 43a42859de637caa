transform RollingSum from A[n] to B[n] {
  to (B.cell(i) b) from (A.region(0, i + 1) a) {
    b = sum(a);
  }
  to (B.cell(i) b) from (A.cell(i) a, B.cell(i - 1) l) {
    b = a + l;
  }
}
