module ByHand
language Rows
---
// the functions that a query stands for
fun people : List { name : Str ; born : Int ; } =>
  map ( fun p : { name : Str ; born : Int ; } => p . name )
    ( filter ( fun p : { name : Str ; born : Int ; } => p . born < 2000 ) people )
