* A refinery's plan by both solvers: by Bland's rule, which is there at first, and by the largest coefficient, which often needs
* fewer pivots. The profit has to be the same by either; each answer proves that no plan earns more.
sets
     f  fuels   / regular, premium, diesel /
     c  crudes  / light, heavy, sour /
     s  stages  / still, cracker, reformer, tanks / ;
parameters
     price(f)   of a barrel  / regular 62, premium 71, diesel 58 /
     cost(c)    of a barrel  / light 55, heavy 42, sour 36 /
     supply(c)  barrels      / light 300, heavy 400, sour 250 /
     room(s)    hours        / still 900, cracker 420, reformer 260, tanks 700 / ;
table yield(f,c)  barrels of a fuel from a barrel of crude
                light   heavy   sour
     regular     0.5     0.3    0.2
     premium     0.3     0.1    0.1
     diesel      0.1     0.5    0.4 ;
table hours(s,c)  hours that a barrel of crude takes
                light   heavy   sour
     still        1      1.2    1.4
     cracker     0.2     0.7    0.6
     reformer    0.4     0.2    0.3
     tanks        1       1      1  ;

positive variables buy(c), sell(f) ;
variable profit ;
equations gain, made(f), time(s) ;
gain..     profit =e= sum(f, price(f)*sell(f)) - sum(c, cost(c)*buy(c)) ;
made(f)..  sell(f) =l= sum(c, yield(f,c)*buy(c)) ;
time(s)..  sum(c, hours(s,c)*buy(c)) =l= room(s) ;
buy.up(c) = supply(c) ;
sell.up("premium") = 120 ;

model plan /all/ ;
option limrow = 0, limcol = 0 ;
solve plan using lp maximizing profit ;
abort$(plan.modelstat <> 1) "no plan" ;
scalar at_first ;
at_first = profit.l ;

option lp = dantzig ;
solve plan using lp maximizing profit ;
abort$(plan.modelstat <> 1) "no plan" ;
abort$(profit.l <> at_first) "the solvers differ" ;
display at_first, buy.l, sell.l, time.m ;
