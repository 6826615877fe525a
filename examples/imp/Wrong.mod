module Wrong
language Imp
---
var done := false ;
while done + 1 do done := true
return done
