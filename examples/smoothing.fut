-- A row of grey values, smoothed: each becomes the mean of itself and its neighbours, weighted 1 2 1 and rounded.
-- Sums are made in 32 bits, since those of bytes would wrap; at an end a pixel is its own neighbour.
def main (row: []u8): []u8 =
  let pixels = map i32.u8 row
  let at (i: i64): i32 = pixels[i64.max 0 (i64.min i (length pixels - 1))]
  in map (\i -> u8.i32 ((at (i - 1) + 2 * at i + at (i + 1) + 2) / 4)) (indices pixels)
