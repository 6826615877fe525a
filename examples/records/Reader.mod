module Reader
language Records
---
// a function that reads a field
fun p : { x : Int ; y : Int ; } => p . y
