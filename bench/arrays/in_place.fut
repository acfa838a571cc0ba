-- A thousand updates of an array of n elements: none of them copies it.
def main (n: i64): i32 =
  let a = loop a = replicate n 0i32 for i < 1000i64 do
            a with [i * 97 % n] = i32.i64 i
  in a[97]
