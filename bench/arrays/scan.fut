-- Running balances of n payments, and the least of them.
def main (n: i64): i64 = i64.minimum (scan (+) 0 (map (\i -> (i * 37 + 5) % 201 - 100) (iota n)))
