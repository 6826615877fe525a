module Column
language Rows
use Select
import People
---
// a string is compared with a number
from p in People where p . name < 2000 select p . born
