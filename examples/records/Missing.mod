module Missing
language Records
---
// the record has no field z
fun p : { x : Int ; } => p . z
