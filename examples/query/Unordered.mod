module Unordered
language Rows
use Order
import People
---
// no such column
People by age
