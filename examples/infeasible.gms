* Two plants are to serve three towns, and cannot. The listing says that no plan exists, and proves it.
*
* How to read the proof: each row that it names is taken as often as its number says, here each capacity -1/5 times and each
* demand 1/5 times. Every shipment cancels, since it stands once in a capacity and once in a demand. The right sides add up to
* -1/5*(60 + 45) + 1/5*(30 + 55 + 35) = 3, which is the bound. If a plan existed the sum would be at most 0. So there is none, and
* the rows that are named cannot hold together: five times the bound, 15 tons, is what the capacities are short of.
sets i  plants  / north, south /
     j  towns   / a, b, c / ;
parameters cap(i)  / north 60, south 45 /
           need(j) / a 30, b 55, c 35 / ;
table dist(i,j)
            a    b    c
     north  4    7    3
     south  6    2    8 ;
positive variable x(i,j) ;
variable cost ;
equations total, supply(i), demand(j) ;
total..      cost =e= sum((i,j), dist(i,j)*x(i,j)) ;
supply(i)..  sum(j, x(i,j)) =l= cap(i) ;
demand(j)..  sum(i, x(i,j)) =g= need(j) ;
model ship /all/ ;
option limrow = 5, limcol = 0 ;
solve ship using lp minimizing cost ;
abort$(ship.modelstat <> 4) "the listing was to say that no plan exists" ;

* With what is missing bought from elsewhere there is a plan.
cap("south") = cap("south") + 15 ;
solve ship using lp minimizing cost ;
abort$(ship.modelstat <> 1) "no plan" ;
display ship.modelstat, x.l ;
