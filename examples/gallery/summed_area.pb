/* The summed-area table: S(x,y) is the sum of A over the rectangle from (0,0) to (x,y). The whole rectangle is added up again for each
   cell, or a cell is made from three neighbours; the edges have the first way alone. */
transform SummedArea from A[w,h] to S[w,h] {
  to (S.cell(x,y) s) from (A.region(0,0,x+1,y+1) a) { s = sum(a); }
  to (S.cell(x,y) s) from (A.cell(x,y) a, S.cell(x-1,y) left, S.cell(x,y-1) up, S.cell(x-1,y-1) corner) {
    s = a + left + up - corner;
  }
}
