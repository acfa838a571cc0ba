-- How often each of ten digits comes among n, by a histogram.
def main (n: i64): []i64 =
  reduce_by_index (replicate 10 0i64) (+) 0 (map (\i -> (i * 37 + 5) % 10) (iota n)) (replicate n 1i64)
