transform Guard from A[n] to B[n] {
  to (B.cell(i) b) from (A.cell(i) a) where n >= 2 { b = a; }
  secondary to (B.cell(i) b) from () { b = 0; }
}
