-- Nim with three heaps: a move takes one or more from one heap, and who takes the last wins.
-- Gives the heap to take from, 1, 2 or 3, and how many; or 0 and 0 where no move wins against one who plays well.
-- A position is lost where each bit stands in an even number of heaps, so a move that wins comes to such a position.

def main (a: u32) (b: u32) (c: u32): (u8, u32) =
  let nim_sum = a ^ b ^ c
  let lowers heap = (heap ^ nim_sum) < heap
  let taken heap = heap - (heap ^ nim_sum)
  in if nim_sum == 0 then (0, 0)
     else if lowers a then (1, taken a)
     else if lowers b then (2, taken b)
     else (3, taken c)
