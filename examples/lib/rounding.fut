-- Rules of rounding: how a quotient becomes a whole number. The divisor is greater than 0.
module type rounding = { val divide: i64 -> i64 -> i64 }

module down = { def divide (a: i64) (b: i64): i64 = a / b }

module up = { def divide (a: i64) (b: i64): i64 = -(-a / b) }

-- to the nearest one, and from the middle to the even one
module half_to_even = {
  def divide (a: i64) (b: i64): i64 =
    let quotient = a / b
    let rest = 2 * (a % b)
    in if rest > b || (rest == b && quotient % 2 == 1) then quotient + 1 else quotient
}
