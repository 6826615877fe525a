module Point
language Records
---
// fields of three types; a field of a field is read
{ x = 1 ; name = "origin" ; inner = { deep = 2 ; } ; } . inner . deep
