module Elders
language Rows
use Select
use Order
import People
---
// by name, which is of strings
from p in People where p . born < 2000 select { who = p . name ; } by who
