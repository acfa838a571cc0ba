-- The product of two matrices.
-- The columns of the second are the rows of its transpose, so each element is the dot product of two rows. The sizes say which
-- matrices have a product: as many columns in the first as rows in the second.
def main [n] [m] [k] (a: [n][m]i32) (b: [m][k]i32): [n][k]i32 =
  let dot (xs: [m]i32) (ys: [m]i32): i32 = i32.sum (map2 (*) xs ys)
  let columns = transpose b
  in map (\row -> map (dot row) columns) a
