module Wrong
language Lam
---
// a number is applied
\ n : Int . 1 n
