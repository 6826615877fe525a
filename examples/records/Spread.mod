module Spread
language Records
---
// all fields of p, behind one more
fun p : { x : Int ; y : Int ; } => { z = 3 ; .. p } . x
