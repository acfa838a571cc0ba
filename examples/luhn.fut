-- Whether the last digit of a number is its check digit, as on bank cards (Luhn), and which one it should be.
-- From the right each second digit counts twice, and one that comes to ten or more counts as the sum of its digits.
-- A number below zero fails: assertion failed.

def weigh (twice: bool) (digit: u64): u64 =
  let weight = if twice then 2 * digit else digit
  in if weight > 9 then weight - 9 else weight

-- the sum of the digits of a number, the last of which counts twice or once
def digit_sum (twice: bool) (number: u64): u64 =
  let end =
    loop s = {sum = 0, rest = number, twice} while s.rest > 0 do
      {sum = s.sum + weigh s.twice (s.rest % 10), rest = s.rest / 10, twice = !s.twice}
  in end.sum

def main (number: i64): (bool, u64) =
  let digits = u64.i64 (assert (number >= 0) number)
  let check = (10 - digit_sum true (digits / 10) % 10) % 10
  in (digit_sum false digits % 10 == 0, check)
