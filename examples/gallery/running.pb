/* The running sum and the running minimum of A: each from all cells up to a place, or by one step from the place before it. */
transform Running from A[n] to S[n], M[n] {
  to (S.cell(i) s) from (A.region(0, i+1) a) { s = sum(a); }
  to (S.cell(i) s) from (A.cell(i) a, S.cell(i-1) before) { s = before + a; }
  to (M.cell(i) m) from (A.region(0, i+1) a) {
    m = a.cell(0);
    for (j = 1 .. i + 1) { m = min(m, a.cell(j)); }
  }
  to (M.cell(i) m) from (A.cell(i) a, M.cell(i-1) before) { m = min(before, a); }
}
