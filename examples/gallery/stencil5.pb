/* Three steps of a five-point stencil over a plate: a cell becomes the mean of itself and its four neighbours, and a cell of the edge
   stays. There is nothing to choose. */
transform Stencil5 where w >= 2, h >= 2 from A[w,h] through B[w,h], C[w,h] to D[w,h] {
  to (B.cell(x,y) b) from (A.cell(x,y) m, A.cell(x-1,y) l, A.cell(x+1,y) r, A.cell(x,y-1) u, A.cell(x,y+1) d) {
    b = (m + l + r + u + d) / 5;
  }
  secondary to (B.cell(x,y) b) from (A.cell(x,y) m) { b = m; }
  to (C.cell(x,y) c) from (B.cell(x,y) m, B.cell(x-1,y) l, B.cell(x+1,y) r, B.cell(x,y-1) u, B.cell(x,y+1) d) {
    c = (m + l + r + u + d) / 5;
  }
  secondary to (C.cell(x,y) c) from (B.cell(x,y) m) { c = m; }
  to (D.cell(x,y) e) from (C.cell(x,y) m, C.cell(x-1,y) l, C.cell(x+1,y) r, C.cell(x,y-1) u, C.cell(x,y+1) d) {
    e = (m + l + r + u + d) / 5;
  }
  secondary to (D.cell(x,y) e) from (C.cell(x,y) m) { e = m; }
}
