transform TwoWay where n >= 2 from A[n] to B[n] {
  to (B.cell(i) b) from (B.cell(i-1) p) where i < n-1 { b = p; }
  to (B.cell(i) b) from (B.cell(i+1) q) where i >= 1 { b = q; }
  secondary to (B.cell(i) b) from (A.cell(i) a) { b = a; }
}
