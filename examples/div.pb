transform Div from A[n], D[n] to Q[n] {
  to (Q.cell(i) q) from (A.cell(i) a, D.cell(i) d) { q = a / d; }
}
