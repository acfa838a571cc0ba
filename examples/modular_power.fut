-- A power modulo any number up to the greatest of 64 bits, by squaring.
-- Arguments: the base, the exponent, the modulus. A modulus of 0 fails: division by zero.
-- A product of two numbers may have 128 bits, so it is made of sums, each of which stays below the modulus.

def add_mod (m: u64) (a: u64) (b: u64): u64 = if a >= m - b then a - (m - b) else a + b

-- n times x, combined by an operation: x, x combined with itself, and so on, for each bit of n that is set.
-- By sums that is a product, and by products a power.
def by_bits (op: u64 -> u64 -> u64) (neutral: u64) (x: u64) (n: u64): u64 =
  let (result, _, _) =
    loop (result, x, n) = (neutral, x, n) while n != 0 do
      (if n & 1 == 1 then op result x else result, op x x, n >> 1)
  in result

def mul_mod (m: u64): u64 -> u64 -> u64 = by_bits (add_mod m) 0

def main (base: u64) (exponent: u64) (m: u64): u64 =
  by_bits (mul_mod m) (1 % m) (base % m) exponent
