module Names
language Lam
---
// the inner x is meant
\ x : Int . \ x : Str . cons x nil Str
