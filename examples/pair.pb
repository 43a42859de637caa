transform Pair from A[n] to U[n], V[n] {
  to (U.cell(i) u) from (V.cell(i) v) { u = v; }
  to (V.cell(i) v) from (U.cell(i) u) { v = u; }
}
