module Nulls
language Lam
use Null
---
// null is 0 in the first place, and "" in the second
( \ n : Int . \ s : Str . itoa n ++ s ) null null
