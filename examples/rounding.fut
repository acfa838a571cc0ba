-- Interest in cents on accounts, at a rate in hundredths of a percent for a number of days, by three rules of rounding: what
-- each of them pays in all. A rule is a module of lib/rounding.fut, and what is worked out by a rule a parametric module.
import "lib/rounding"

module interest (rule: rounding) = {
  def one (rate: i64) (days: i64) (balance: i64): i64 =
    rule.divide (balance * rate * days) (10000 * 360)
  def total (rate: i64) (days: i64) (balances: []i64): i64 = i64.sum (map (one rate days) balances)
}

module low = interest down
module high = interest up
module fair = interest half_to_even

def main (rate: i64) (days: i64) (balances: []i64): (i64, i64, i64) =
  (low.total rate days balances, high.total rate days balances, fair.total rate days balances)
