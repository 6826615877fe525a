module Sum
language Imp
---
// the sum of the numbers below ten
var i := 0 ;
var sum := 0 ;
while i < 10 do {
  sum := sum + i ;
  i := i + 1
}
return sum
