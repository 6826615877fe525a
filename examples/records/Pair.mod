module Pair
language Records
---
// a record in a record; the second is empty
( fun x : Int => { first = x ; second = { } ; } ) 1
