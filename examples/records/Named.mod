module Named
language Records
use Let
use Pun
---
// fields are named as the values that stand in them
let x = 1 in let y = "high" in
let p = { x ; y ; } in
{ x ; p . y ; both = p ; }
