-- How many groups a set of people falls into who know one another, of pairs who do, and the first member of each one's group.
-- Each person points at another of the group, and the first member at itself. On the way up every second pointer is moved on
-- to where it leads (path halving), in the one array of pointers.
def main (people: i64) (a: []i64) (b: []i64): (i64, []i64) =
  let top (up: *[]i64) (x: i64): (*[]i64, i64) =
    loop (up, x) = (up, x) while up[x] != x do
      let up[x] = up[up[x]]
      in (up, up[x])
  let up =
    loop up = iota people for i < length a do
      let (up, x) = top up a[i]
      let (up, y) = top up b[i]
      in if x < y then up with [y] = x else up with [x] = y
  let (up, first) =
    loop (up, first) = (up, replicate people 0) for x < people do
      let (up, t) = top up x
      in (up, first with [x] = t)
  in (i64.sum (map (\x -> i64.bool (first[x] == x)) (iota people)), first)
