-- How often each of ten digits comes among n, by a comparison with each digit.
def main (n: i64): []i64 =
  let digits = map (\i -> (i * 37 + 5) % 10) (iota n)
  in map (\d -> i64.sum (map (\x -> if x == d then 1i64 else 0i64) digits)) (iota 10)
