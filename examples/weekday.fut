-- The day of the week of a date of the Gregorian calendar, from 1 for Monday to 7 for Sunday, and the number of the day in
-- its year. Quotients are rounded towards negative infinity, so years before the year 1 need no case of their own.
-- A month that there is not, and a day that its month does not have, fail: assertion failed.

def is_leap (year: i64): bool = year % 4 == 0 && (year % 100 != 0 || year % 400 == 0)

def days_of_month (year: i64) (month: i64): i64 =
  if month == 2 then (if is_leap year then 29 else 28)
  else if month == 4 || month == 6 || month == 9 || month == 11 then 30 else 31

-- the days before the first of January of a year, from that of the year 1 on
def days_before_year (year: i64): i64 =
  let y = year - 1
  in 365 * y + y / 4 - y / 100 + y / 400

def day_of_year (date: {year: i64, month: i64, day: i64}): i64 =
  loop days = date.day for m < date.month - 1 do days + days_of_month date.year (m + 1)

def main (year: i64) (month: i64) (day: i64): (i64, i64) =
  let there_is = 1 <= month && month <= 12 && 1 <= day && day <= days_of_month year month
  let date = assert there_is {year, month, day}
  let in_year = day_of_year date
  in ((days_before_year year + in_year - 1) % 7 + 1, in_year)
