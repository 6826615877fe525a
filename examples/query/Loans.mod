module Loans
language Rows
use Table
---
// who has which book, and for how many days
{ title = "Tides" ; reader = "Ann" ; days = 12 ; } ::
[ { title = "Knots" ; reader = "Cy" ; days = 30 ; } ]
