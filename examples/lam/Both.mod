module Both
language Lam
use Pair
---
// a Pair is a type of its own in this module, and in what is built a function
\ p : Pair Int Str . p
