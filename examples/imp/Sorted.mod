module Sorted
language Imp
use Swap
use Unless
---
// two numbers in order; their values are exchanged by way of c
var a := 3 ;
var b := 2 ;
unless a < b do swap a and b by c
return a < b
