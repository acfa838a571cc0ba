-- Ten generations of Conway's game of life on a torus of n by n cells, and how many live then.
def at (board: [][]i32) (n: i64) (i: i64) (j: i64): i32 = board[(i + n) % n, (j + n) % n]

def neighbours (board: [][]i32) (n: i64) (i: i64) (j: i64): i32 =
  at board n (i - 1) (j - 1) + at board n (i - 1) j + at board n (i - 1) (j + 1)
  + at board n i (j - 1) + at board n i (j + 1)
  + at board n (i + 1) (j - 1) + at board n (i + 1) j + at board n (i + 1) (j + 1)

def generation (n: i64) (board: [][]i32): [][]i32 =
  tabulate n (\i -> tabulate n (\j ->
    let c = neighbours board n i j
    in if c == 3i32 || (c == 2i32 && board[i, j] == 1i32) then 1i32 else 0i32))

def main (n: i64) (turns: i64): i32 =
  let first = tabulate n (\i -> tabulate n (\j -> if (i * 31 + j * 17) % 7 < 3 then 1i32 else 0i32))
  let last = loop board = first for t < turns do generation n board
  in i32.sum (map i32.sum last)
