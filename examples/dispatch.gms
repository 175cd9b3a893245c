* Which units run in which hour, where two nodes are joined by one line and the water of the day is limited.
* The marginal of a balance is the price of a megawatt hour at that node and hour.
sets
     n  nodes  / north, south /
     u  units  / coal, gas, hydro /
     h  hours  / h1*h4 /
     at(u,n)  where a unit stands  / (coal,hydro).north, gas.south / ;
parameters
     size(u)  greatest output in megawatts        / coal 300, gas 200, hydro 120 /
     fuel(u)  cost of a megawatt hour in dollars  / coal 22, gas 41, hydro 3 /
     into(n)  what the line's flow does to a node / north -1, south 1 / ;
table need(n,h)  load in megawatts
            h1    h2    h3    h4
     north  140   180   210   160
     south  150   210   260   190 ;
scalars
     line   what the line carries in megawatts               /180/
     water  what the reservoir gives in a day in megawatt hours /360/ ;

positive variable run(u,h)  output ;
variables flow(h)  from north to south, cost  of the day ;
equations total, balance(n,h), lake ;
total..         cost =e= sum((u,h), fuel(u)*run(u,h)) ;
balance(n,h)..  sum(u$at(u,n), run(u,h)) + into(n)*flow(h) =e= need(n,h) ;
lake..          sum(h, run("hydro",h)) =l= water ;
run.up(u,h) = size(u) ;
flow.lo(h) = -line ;
flow.up(h) = line ;

model day /all/ ;
option limrow = 2, limcol = 1 ;
solve day using lp minimizing cost ;
abort$(day.modelstat <> 1) "no plan" ;
parameter price(n,h) ;
price(n,h) = balance.m(n,h) ;
display run.l, flow.l, price ;
