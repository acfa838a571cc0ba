-- n numbers in order, by insertion, in one array that is overwritten.
def main (n: i64): i64 =
  let sorted =
    loop a = map (\i -> (i * 7919 + 13) % 10007) (iota n) for i < n do
      let x = a[i]
      let (a, at) =
        loop (a, at) = (a, i) while at > 0 && a[at - 1] > x do
          let a[at] = a[at - 1]
          in (a, at - 1)
      in a with [at] = x
  in i64.sum (map2 (*) sorted (iota n))
