-- The Julian day number of a date of the Gregorian calendar, by which dates are told apart in days.
-- Quotients are rounded towards negative infinity, so dates before the year 0 need no case of their own.
def main (year: i64) (month: i64) (day: i64): i64 =
  let before_march: i64 = (14 - month) / 12
  in let y: i64 = year + 4800 - before_march
  in let m: i64 = month + 12 * before_march - 3
  in day + (153 * m + 2) / 5 + 365 * y + y / 4 - y / 100 + y / 400 - 32045
