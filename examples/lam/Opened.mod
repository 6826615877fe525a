module Opened
language Lam
use Pair
---
// a Pair is no function here
\ p : Pair Int Str . p ( \ n : Int . \ s : Str . s )
