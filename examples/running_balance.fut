-- The balance of an account after each posting, and the first posting that overdraws it (-1 where none does).
-- A running total is a scan: it has the sum of each prefix, and can be worked out in parallel all the same.
def main (opening: i64) (postings: []i64): ([]i64, i64) =
  let balances = map (+ opening) (scan (+) 0 postings)
  let overdrawn = filter (\i -> balances[i] < 0) (indices balances)
  in (balances, if null overdrawn then -1 else overdrawn[0])
