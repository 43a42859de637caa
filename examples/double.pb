transform Double from A[n] to B[n] { to (B.cell(i) b) from (A.cell(i) a) { b = a + a; } }
