module Least
language Imp
---
// whether the least of two numbers is below ten
var a := 3 ;
var b := 2 ;
var least := a ;
if b < a then least := b else skip
return least < 10
