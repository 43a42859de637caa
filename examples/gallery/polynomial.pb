/* The product of two polynomials, given by their coefficients from the constant on: each coefficient by a pass over both, or the
   lower and the upper half of A times B, laid over one another. */
transform Overlap from S[s], R[r], B[m], P[s+m-1], Q[r+m-1] to C[s+r+m-1] {
  to (C.cell(i) c) from (P.cell(i) p, Q.cell(i-s) q) { c = p + q; }
  secondary to (C.cell(i) c) from (P.cell(i) p) { c = p; }
  secondary to (C.cell(i) c) from (Q.cell(i-s) q) { c = q; }
}
transform Multiply from A[n], B[m] to C[n+m-1] {
  to (C.cell(i) c) from (A a, B b) {
    for (j = max(0, i - m + 1) .. min(n, i + 1)) { c = c + a.cell(j) * b.cell(i - j); }
  }
  to (C c) from (A.region(0, n/2) a1, A.region(n/2, n) a2, B b) where n >= 2 {
    let p[n/2+m-1]; let q[n-n/2+m-1];
    p = Multiply(a1, b);
    q = Multiply(a2, b);
    c = Overlap(a1, a2, b, p, q);
  }
}
