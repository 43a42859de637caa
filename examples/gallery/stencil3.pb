/* Heat along a rod: row y of H is the rod after y steps. A cell is the mean of the three cells around it a step before, and of two
   at an end, plus what F adds at that step. Row 0 is A with what F adds at first. There is nothing to choose: where the rule for the
   middle can be used it is. */
transform Stencil3 where n >= 2 from A[n], F[t] to H[n,t] {
  to (H.cell(x,y) c) from (H.cell(x-1,y-1) l, H.cell(x,y-1) m, H.cell(x+1,y-1) r, F.cell(y) f) { c = (l + m + r) / 3 + f; }
  secondary to (H.cell(x,y) c) from (H.cell(x,y-1) m, H.cell(x+1,y-1) r, F.cell(y) f) where x < 1 { c = (m + r) / 2 + f; }
  secondary to (H.cell(x,y) c) from (H.cell(x-1,y-1) l, H.cell(x,y-1) m, F.cell(y) f) where x >= n-1 { c = (l + m) / 2 + f; }
  secondary to (H.cell(x,y) c) from (A.cell(x) a, F.cell(y) f) where y < 1 { c = a + f; }
}
