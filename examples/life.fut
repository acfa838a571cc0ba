-- The game of life on a torus, so many generations on: 1 is a cell that lives, 0 one that does not.
-- Turning the whole board by one step brings a neighbour to each cell, so no edge is a special case.
def main (generations: i64) (board: [][]i32): [][]i32 =
  let add3 (a: i32) (b: i32) (c: i32): i32 = a + b + c
  let next (alive: i32) (block: i32): i32 = if block == 3 || (block == 4 && alive == 1) then 1 else 0
  in loop cells = board for generation < generations do
       let threes = map (\row -> map3 add3 (rotate (-1) row) row (rotate 1 row)) cells
       let blocks = map3 (map3 add3) (rotate (-1) threes) threes (rotate 1 threes)
       in map2 (map2 next) cells blocks
