module Unknown
language Records
use Pun
---
// the record has no field z
fun p : { x : Int ; } => { p . x ; p . z ; }
