* What a factory makes, sells and stores of seven products in half a year, while its machines are down for upkeep in turn.
* Data: "Factory planning" in H. P. Williams, "Model Building in Mathematical Programming".
* Published objective: 93,715 pounds.
sets
     p  products  / p1*p7 /
     m  machines  / grinder, vertical_drill, horizontal_drill, borer, planer /
     t  months    / jan, feb, mar, apr, may, jun / ;
table takes(m,p)  hours of a machine for a unit
                          p1    p2    p3    p4    p5    p6    p7
     grinder             0.5   0.7               0.3   0.2   0.5
     vertical_drill      0.1   0.2         0.3         0.6
     horizontal_drill    0.2         0.8                     0.6
     borer              0.05  0.03        0.07   0.1        0.08
     planer                         0.01        0.05        0.05 ;
table market(t,p)  units that can be sold
            p1    p2    p3    p4    p5    p6    p7
     jan   500  1000   300   300   800   200   100
     feb   600   500   200     0   400   300   150
     mar   300   600     0     0   500   400   100
     apr   200   300   400   500   200     0   100
     may     0   100   500   100  1000   300     0
     jun   500   500   100   300  1100   500    60 ;
parameters
     gain(p)    pounds a unit  / p1 10, p2 6, p3 8, p4 4, p5 11, p6 9, p7 3 /
     there(m)   machines  / grinder 4, vertical_drill 2, horizontal_drill 3, borer 1, planer 1 /
     down(m,t)  machines that are down
       / grinder.(jan,may) 1, vertical_drill.(apr,may) 1, horizontal_drill.feb 2, horizontal_drill.jun 1
         borer.mar 1, planer.jun 1 / ;
scalars
     hours  of work in a month for each machine   / 384 /
     room   for units of a product                / 100 /
     rest   units of each that are there in the end  / 50 /
     hold   pounds for a unit over a month        / 0.5 / ;

positive variables make(p,t), sell(p,t), store(p,t) ;
variable profit ;
equations money, work(m,t), carry(p,t) ;
money..       profit =e= sum((p,t), gain(p)*sell(p,t) - hold*store(p,t)) ;
work(m,t)..   sum(p, takes(m,p)*make(p,t)) =l= hours*(there(m) - down(m,t)) ;
carry(p,t)..  store(p,t-1) + make(p,t) =e= sell(p,t) + store(p,t) ;
sell.up(p,t) = market(t,p) ;
store.up(p,t) = room ;
store.fx(p,"jun") = rest ;

model plan /all/ ;
option limrow = 1, limcol = 0 ;
solve plan using lp maximizing profit ;
abort$(plan.modelstat <> 1) "no plan" ;
option decimals = 1 ;
display make.l, store.l, work.m ;
