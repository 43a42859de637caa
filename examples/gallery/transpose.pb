/* The transpose of A: cell by cell, or by quarters, each transposed by a call, until they fit into what is near. */
transform Transpose from A[w,h] to B[h,w] {
  to (B.cell(x,y) b) from (A.cell(y,x) a) { b = a; }
  to (B.region(0,0,h/2,w/2) p, B.region(h/2,0,h,w/2) q, B.region(0,w/2,h/2,w) r, B.region(h/2,w/2,h,w) s)
  from (A.region(0,0,w/2,h/2) a, A.region(0,h/2,w/2,h) b, A.region(w/2,0,w,h/2) c, A.region(w/2,h/2,w,h) d)
  where w >= 2, h >= 2 {
    p = Transpose(a);
    q = Transpose(b);
    r = Transpose(c);
    s = Transpose(d);
  }
}
