module Squares
language Imp
use For
---
// the sum of the squares of the numbers below ten
var sum := 0 ;
for i := 0 upto 10 do
  for j := 0 upto i do
    sum := sum + i
return sum
