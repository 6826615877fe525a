module Mixed
language Lam
use Let
use For
---
// no list to run through
let n = 1 in for m in n yield itoa m
