module Scoped
language Imp
use Block
---
// the n within is a truth value, and the n behind the block is the number again
var n := 1 ;
begin
  var n := true ;
  var m := n
end
return n
