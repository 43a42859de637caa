transform Prefix2 from A[w,h] to S[w,h] {
  to (S.cell(x,y) s) from (A.cell(x,y) a, S.cell(x-1,y) l, S.cell(x,y-1) u,
                           S.cell(x-1,y-1) d) { s = a + l + u - d; }
  secondary to (S.cell(x,y) s) from (A.region(0,0,x+1,y+1) r) { s = sum(r); }
}
