/* The least cell of A: in one pass, or the lesser of the least cells of both halves, which don't wait for each other. */
transform Lesser from A[n], B[n] to C[n] {
  to (C.cell(i) c) from (A.cell(i) a, B.cell(i) b) { c = min(a, b); }
}
transform Least from A[n] to M[1] {
  to (M m) from (A a) {
    let least = a.cell(0);
    for (i = 1 .. n) { least = min(least, a.cell(i)); }
    m.cell(0) = least;
  }
  to (M m) from (A.region(0, n/2) a, A.region(n/2, n) b) where n >= 2 {
    let p[1]; let q[1];
    p = Least(a);
    q = Least(b);
    m = Lesser(p, q);
  }
}
