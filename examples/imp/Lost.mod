module Lost
language Imp
use Swap
---
// the third name is one of the two
var a := 3 ;
var b := 2 ;
swap a and b by a
return a
