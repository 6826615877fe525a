module Guess
language Imp
use Unless
use Repeat
---
// the least number whose double is over ten, or 0 where that is not below ten
var n := 0 ;
repeat n := n + 1 until 10 < n + n ;
unless n < 10 do n := 0
return n
