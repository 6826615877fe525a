module Renamed
language Records
use With
---
// a field keeps its type
fun p : { x : Int ; y : Int ; } => p with y = "high"
