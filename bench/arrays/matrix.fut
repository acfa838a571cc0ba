-- The trace of the product of two matrices of n by n.
def product (a: [][]i64) (b: [][]i64): [][]i64 =
  let columns = transpose b
  in map (\row -> map (\column -> i64.sum (map2 (*) row column)) columns) a

def main (n: i64): i64 =
  let a = tabulate n (\i -> tabulate n (\j -> (i * 3 + j) % 11))
  let b = tabulate n (\i -> tabulate n (\j -> (i + j * 5) % 13))
  let c = product a b
  in i64.sum (map (\i -> c[i, i]) (iota n))
