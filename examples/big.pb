transform Big from A[n] through T[2*n] to B[n] {
  to (T.cell(i) t) from () { t = 1; }
  to (B.cell(i) b) from (A.cell(i) a, T.cell(i) t) { b = a + t; }
}
transform Bigger from A[n] through T[2*n+1] to B[n] {
  to (T.cell(i) t) from () { t = 1; }
  to (B.cell(i) b) from (A.cell(i) a, T.cell(i) t) { b = a + t; }
}
