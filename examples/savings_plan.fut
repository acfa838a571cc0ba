-- A savings plan: gives the balance after so many years, what was paid in, and the interest, all in cents.
-- Arguments: the deposit at the end of each month in cents, the rate a year in hundredths of a percent, the years.
-- Interest is rounded down to cents each month.

def interest (rate: i64) (balance: i64): i64 = balance * rate / 120000

-- one month of a plan
def next (deposit: i64) (rate: i64) (plan: {balance: i64, paid: i64}): {balance: i64, paid: i64} =
  let grown = plan.balance + interest rate plan.balance
  in {balance = grown + deposit, paid = plan.paid + deposit}

def main (deposit: i64) (rate: i64) (years: i64): (i64, i64, i64) =
  let month = next deposit rate
  let plan = loop plan = {balance = 0, paid = 0} for _m < 12 * years do month plan
  in (plan.balance, plan.paid, plan.balance - plan.paid)
