module Bound
language Imp
use For
---
// a bound that is no number
var done := false ;
var n := 0 ;
for i := 0 upto done do n := n + i
return n
