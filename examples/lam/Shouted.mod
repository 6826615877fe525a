module Shouted
language Lam
use Loud
---
// loud is written by show, and here show is of a number
loud 1
