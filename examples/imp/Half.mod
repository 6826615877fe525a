module Half
language Imp
---
// the first of the numbers whose double is not below a hundred
var n := 0 ;
while not ( 100 < n + n + 1 ) do n := n + 1
return n
