* What a fertilizer works makes and stores in each quarter of two years, for three forecasts of
* demand. The loop solves the plan once for each of them and keeps the figures for a table.
sets
     t  quarters   / q1*q8 /
     s  forecasts  / low, middle, high / ;
parameters
     demand(t)  kilotons of the middle forecast  / q1 60, q2 110, q3 75, q4 40, q5 64, q6 118, q7 80, q8 43 /
     factor(s)  of the middle forecast           / low 0.85, middle 1, high 1.15 /
     price(t)   of a ton of gas for it in dollars  / q1 210, q2 195, q3 190, q4 220, q5 215, q6 200, q7 195, q8 225 /
     need(t)    kilotons in the forecast that is solved ;
scalars
     works   kilotons that the works make in a quarter  / 72 /
     extra   kilotons in a quarter on weekends     / 14 /
     wage    dollars a ton more on weekends        / 30 /
     silo    kilotons that the silos hold          / 50 /
     hold    dollars a ton and quarter in a silo   / 6 /
     bought  dollars a ton from another works      / 330 /
     first   kilotons in the silos at first        / 20 / ;

positive variables make(t), weekend(t), buy(t), keep(t) ;
variable cost  thousands of dollars ;
make.up(t) = works ;
weekend.up(t) = extra ;
keep.up(t) = silo ;
keep.lo("q8") = first ;
equations total, balance(t) ;
total..       cost =e= sum(t, price(t)*make(t) + (price(t) + wage)*weekend(t) + bought*buy(t) + hold*keep(t)) ;
balance(t)..  keep(t-1) + first$(ord(t) = 1) + make(t) + weekend(t) + buy(t) =e= need(t) + keep(t) ;
model seasons / all / ;

parameters result(s,*), stock(s,t)  kilotons in the silos ;
option limrow = 0, limcol = 0, solprint = off ;
loop(s,
  need(t) = factor(s)*demand(t) ;
  solve seasons using lp minimizing cost ;
  abort$(seasons.modelstat <> 1) "no plan for this forecast" ;
  result(s,"cost") = cost.l ;
  result(s,"weekend") = sum(t, weekend.l(t)) ;
  result(s,"bought") = sum(t, buy.l(t)) ;
  result(s,"dearest") = smax(t, balance.m(t)) ;
  stock(s,t) = keep.l(t)
) ;
display result, stock ;
