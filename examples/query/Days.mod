module Days
language Rows
use Join
use Order
import People
import Loans
---
// for how many days the elder people keep books
sum days of
  ( from p in ( from q in People where q . born < 2000 select q ) , l in Loans
    where l . reader == p . name
    select { days = l . days ; title = l . title ; } )
