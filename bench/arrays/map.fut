-- An affine map over n integers, and their sum so that one line is printed.
def main (n: i64): i64 = i64.sum (map (\x -> x * 3 + 1) (iota n))
