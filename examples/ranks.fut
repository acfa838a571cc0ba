-- The place of each runner, from 1 on, and the runners by their places: the places are a permutation, which is turned around
-- by writing each runner's number at its place. Runners of one time stand in the order of their numbers.
def main (times: []i32): ([]i64, []i64) =
  let before i j = times[i] < times[j] || (times[i] == times[j] && i < j)
  let places = map (\j -> i64.sum (map (\i -> i64.bool (before i j)) (indices times))) (indices times)
  let runners = scatter (replicate (length times) 0) places (indices times)
  in (map (+ 1) places, runners)
