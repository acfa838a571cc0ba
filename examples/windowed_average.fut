-- The mean of each window of so many readings in a row, rounded towards zero.
-- A slice from i on has a size that is not known before the program runs; `:>` says that it is the width of the window, so that
-- all windows are rows of one array.
def windows [n] (width: i64) (readings: [n]i64): [][width]i64 =
  map (\i -> readings[i:i + width] :> [width]i64) (iota (i64.max 0 (n - width + 1)))

def mean [k] (xs: [k]i64): i64 = i64.sum xs / k

def main [n] (width: i64) (readings: [n]i64): []i64 = map mean (windows width readings)
