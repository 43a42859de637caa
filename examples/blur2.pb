transform Blur3 where n >= 2 from A[n] to B[n] {
  to (B.cell(i) b) from (A.region(i-1, i+2) a) { b = sum(a) / 3; }
  secondary to (B.cell(i) b) from (A.cell(i) a) { b = a; }
}
