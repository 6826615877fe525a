module Listed
language Lam
use For
---
// the type of n comes from the list
for n in cons 1 ( cons 2 nil Int ) yield "no. " ++ itoa n
