module Point3
language Records
use With
---
// y is 2 at first
{ x = 1 ; y = 2 ; z = "up" ; } with y = 3
