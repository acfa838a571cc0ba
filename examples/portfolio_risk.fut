-- What a portfolio gives in each scenario, how many lose more than a limit, and the loss that all but the worst few keep to.
-- Positions are cents and moves basis points, so all is exact; no scenario waits for another, and none need be sorted.
def main [n] [m] (limit: i64) (few: i64) (positions: [m]i64) (scenarios: [n][m]i64): ([n]i64, i64, i64) =
  let results = map (\moves -> i64.sum (map2 (*) positions moves) / 10000) scenarios
  let over = i64.sum (map (\result -> i64.bool (-result > limit)) results)
  let worse (i: i64) (j: i64): bool = results[j] < results[i] || (results[j] == results[i] && j < i)
  let rank (i: i64): i64 = length (filter (worse i) (indices results))
  let within = filter (\i -> rank i >= few) (indices results)
  let worst = i64.minimum (map (\i -> results[i]) within)
  in (results, over, i64.max 0 (-worst))
