module Named
language Lam
use Let
---
// a let in a let: each type is found, and none is written but that of name
let one = 1 in let greet = \ name : Str . "hello " ++ name in greet ( itoa one )
