module Greeting
language Lam
use Let
use Show
import Listed
import Both
---
// an import stands under its name, and Both without Pair is of functions
let first = Both ( \ f : Int -> Str -> Str . f 1 ( show "one" ) ) in cons ( first ( \ n : Int . \ s : Str . show n ++ s ) ) Listed
