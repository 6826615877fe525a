module Scope
language Imp
---
// what a branch declares ends with it
if true then var a := 1 else skip
return a
