/* The longest common subsequence: L(x,y) is the length of the longest one of the first x cells of A and the first y of B, so the last
   cell is that of both. There is nothing to choose; all cells of a diagonal could be made at once. */
transform CommonSubsequence from A[n], B[m] to L[n+1,m+1] {
  to (L.cell(x,y) l) from (A.cell(x-1) a, B.cell(y-1) b, L.cell(x-1,y-1) both, L.cell(x-1,y) left, L.cell(x,y-1) up) {
    if (a == b) { l = both + 1; } else { l = max(left, up); }
  }
  secondary to (L.cell(x,y) l) from () { l = 0; }
}
