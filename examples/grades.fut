-- How many of the points fall into each of so many classes of one width, from 0 on, and the points of each class in all.
-- Each class combines what falls into it; what falls into none is passed over.
def main (classes: i64) (width: i32) (points: []i32): ([]i64, []i32) =
  let class_of = map (\p -> i64.i32 (p / width)) points
  let counts = reduce_by_index (replicate classes 0) (+) 0 class_of (map (\_ -> 1i64) points)
  let sums = reduce_by_index (replicate classes 0) (+) 0 class_of points
  in (counts, sums)
