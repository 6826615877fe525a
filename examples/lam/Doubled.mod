module Doubled
language Lam
use Twice
---
// the part of twice is written once here, and stands twice in what is built
twice ( "ab" ++ "c" )
