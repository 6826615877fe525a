module Total
language Imp
use For
import Sum
import Squares
---
// the values of other programs, by their names
var total := Sum ;
for i := 0 upto 3 do total := total + Squares
return total
