module Titles
language Rows
use Select
use Order
import Loans
---
// the books that are lent, in the order of their titles
from l in Loans select { title = l . title ; } by title
