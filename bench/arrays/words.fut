-- Reads integers and prints each with one more.
def main (xs: []i64): []i64 = map (\x -> x + 1) xs
