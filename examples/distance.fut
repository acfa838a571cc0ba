-- The square of the distance of two points, which tells which of two points is nearer without a root.
def main (x1: i64) (y1: i64) (x2: i64) (y2: i64): i64 =
  x1 * x1 - 2 * x1 * x2 + x2 * x2 + y1 * y1 - 2 * y1 * y2 + y2 * y2
