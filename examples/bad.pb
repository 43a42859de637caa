transform Copy from A[m] to C[m] { to (C.cell(i) c) from (A.cell(i) a) { c = a; } }
transform Bad from A[n] to B[n] { to (B b) from (A.region(0, n/2) a) { b = Copy(a); } }
