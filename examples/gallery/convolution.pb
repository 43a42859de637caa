/* One-dimensional convolution with a kernel of five cells, where what lies outside A counts as 0. In the middle a cell is a dot product
   of five cells of A with the kernel, or it looks through all of A as the cells near the ends must. */
transform Convolve where n >= 4 from A[n], K[5] to C[n] {
  to (C.cell(i) c) from (A a, K k) {
    for (j = 0 .. 5) {
      if (i + j >= 2 && i + j < n + 2) { c = c + a.cell(i + j - 2) * k.cell(j); }
    }
  }
  to (C.cell(i) c) from (A.region(i-2, i+3) a, K k) { c = dot(a, k); }
}
