module Fourfold
language Lam
use Quad
---
// quad is written by twice, which is gone in what is built, too
\ s : Str . quad s
