-- How often a number is halved, or tripled and one added, until it is 1; and the greatest number on the way.
-- Nobody knows whether that always ends. Each `while` has a budget of turns, `--turns`, and where it is spent the run ends
-- with status 13. The words behind the file stand in collatz.words.

def step (n: u64): u64 = if n % 2 == 0 then n / 2 else 3 * n + 1

def main (start: u64): (i64, u64) =
  let (steps, greatest, _) =
    loop (steps, greatest, n) = (0, start, start) while n != 1 do
      let after = step n
      in (steps + 1, u64.max greatest after, after)
  in (steps, greatest)
