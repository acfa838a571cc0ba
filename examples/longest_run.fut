-- The longest run of values each of which is above the one before (the first where several are as long), and its length.
-- Where the run of a value begins is the greatest begin so far, which is a scan by max.
def main (xs: []i64): ([]i64, i64) =
  let begins = scan i64.max 0 (map (\i -> if i > 0 && xs[i] > xs[i - 1] then 0 else i) (indices xs))
  let lengths = map2 (\i begin -> i - begin + 1) (indices xs) begins
  let longest = reduce i64.max 0 lengths
  let ends = filter (\i -> lengths[i] == longest) (indices xs)
  in (if null ends then [] else xs[begins[ends[0]]:ends[0] + 1], longest)
