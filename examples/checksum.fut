-- A checksum of four words by a polynomial, in 64 bits: sums and products wrap.
def main (a: i64) (b: i64) (c: i64) (d: i64): i64 =
  a * 1099511628211 * 1099511628211 * 1099511628211
    + b * 1099511628211 * 1099511628211
    + c * 1099511628211
    + d
