module Asked
language Rows
use Select
---
// the same as a query: its base is that of ByHand
fun people : List { name : Str ; born : Int ; } =>
  from p in people where p . born < 2000 select p . name
