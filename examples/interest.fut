-- A balance in cents after one period: the rate is in hundredths of a percent, and the rest below a cent is kept apart.
-- Arguments: the balance in cents, the rate, a payment in cents. The result is in ten-thousandths of a cent.
def main (balance: i64) (rate: i64) (payment: i64): i64 =
  balance * 10000 + balance * rate - payment * 10000
