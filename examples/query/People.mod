module People
language Rows
use Table
---
// a table: each row has the same columns
{ name = "Ann" ; born = 1990 ; } ::
{ name = "Bo" ; born = 2004 ; } ::
[ { name = "Cy" ; born = 1987 ; } ]
