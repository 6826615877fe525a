module Opened
language Records
use Open
use Pun
import Point3
---
// two fields of an import, under their names
open y of Point3 in open z of Point3 in { y ; z ; }
