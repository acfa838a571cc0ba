-- Runs of equal values, as each run's value and its length.
-- A run begins where a value differs from the one before it, and ends where the next one begins: as many
-- ends as starts, which the program knows and its sizes do not, so it says so with `:>`.
def main (xs: []i32): ([]i32, []i64) =
  let [k] (starts: [k]i64) = filter (\i -> i == 0 || xs[i] != xs[i - 1]) (indices xs)
  let ends = (if null starts then [] else concat (tail starts) [length xs]) :> [k]i64
  in (map (\i -> xs[i]) starts, map2 (-) ends starts)
