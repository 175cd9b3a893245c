* A trader buys and sells, and the modeller forgot what the store can turn over. The listing says that the profit has no end.
*
* How to read the proof: the point is a plan that is possible, and the ray says what to do more of. Each unit along the ray keeps
* every row and every bound, and adds to the profit what the ray has at it. So what the ray names is what lacks a limit:
* here buying a ton and selling it again. It costs nothing of the storage, which is the limit that was written.
positive variables buy, sell, keep ;
variable profit ;
equations gain, flow, storage ;
gain..     profit =e= 45*sell - 40*buy - 2*keep ;
flow..     12 + buy =e= sell + keep ;
storage..  keep =l= 30 ;
model trade /all/ ;
option limcol = 0 ;
solve trade using lp maximizing profit ;
abort$(trade.modelstat <> 3) "the listing was to say that the profit has no end" ;

* With the trucks that there are the profit has an end.
buy.up = 200 ;
solve trade using lp maximizing profit ;
abort$(trade.modelstat <> 1) "no plan" ;
display buy.l, sell.l, keep.l, profit.l ;
