module Main
language Lam
---
( \ x : Int . x ) 1
