module Shown
language Lam
use For
use Show
---
// the first show is of numbers, the second of a string
for n in cons 1 ( cons 2 nil Int ) yield show n ++ show ", "
