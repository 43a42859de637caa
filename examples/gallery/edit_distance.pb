/* The edit distance: D(x,y) is how many cells must be put in, taken out or changed to make the first y cells of B of the first x of A, so
   the last cell is that of both. There is nothing to choose. */
transform EditDistance from A[n], B[m] to D[n+1,m+1] {
  to (D.cell(x,y) d) from (A.cell(x-1) a, B.cell(y-1) b, D.cell(x-1,y-1) both, D.cell(x-1,y) left, D.cell(x,y-1) up) {
    if (a == b) { d = both; } else { d = 1 + min(both, min(left, up)); }
  }
  secondary to (D.cell(x,y) d) from () { d = x + y; }
}
