/* The matrix product: each cell is a row of A times a column of B, or the upper and the lower half of the product are made by a call
   each, which don't wait for each other. */
transform Product from A[c,h], B[w,c] to P[w,h] {
  to (P.cell(x,y) p) from (A.row(y) a, B.column(x) b) { p = dot(a, b); }
  to (P.region(0,0,w,h/2) p, P.region(0,h/2,w,h) q) from (A.region(0,0,c,h/2) a1, A.region(0,h/2,c,h) a2, B b) where h >= 2 {
    p = Product(a1, b);
    q = Product(a2, b);
  }
}
