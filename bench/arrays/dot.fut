-- The dot product of two vectors of n integers.
def main (n: i64): i64 = i64.sum (map2 (*) (iota n) (map (\i -> (i * 37 + 11) % 101) (iota n)))
