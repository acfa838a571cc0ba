-- The hour that a dial of so many hours shows, some hours from now, or ago where they are below zero.
-- A dial of no hours fails: division by zero.
def main (dial: i64) (now: i64) (hours: i64): i64 =
  let later: i64 = now + hours
  in later - later / dial * dial
