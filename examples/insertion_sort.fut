-- The numbers in order, by insertion: each one moves down to its place among those before it.
-- There is one array. A row that is overwritten is never read again, so nothing is copied but the input.
def main (xs: []i32): []i32 =
  loop a = copy xs for i < length xs do
    let x = a[i]
    let (a, at) =
      loop (a, at) = (a, i) while at > 0 && a[at - 1] > x do
        let a[at] = a[at - 1]
        in (a, at - 1)
    in a with [at] = x
