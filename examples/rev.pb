transform Rev from A[n] to B[n] {
  to (B b) from (A a) { for (k = 0 .. n) { b.cell(k) = a.cell(n - 1 - k); } }
}
