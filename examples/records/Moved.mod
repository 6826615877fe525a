module Moved
language Records
use With
---
// the point p, with a step from its x as its x, and its own x as its y
fun step : Int -> Int =>
  fun p : { x : Int ; y : Int ; } => p with x = step p . x with y = p . x
