* How two reservoirs supply three towns in a normal year, at the least cost of pumping.
* The plan is saved, and studies go on from it:  gams25 --save base.sav base.gms
sets
     r  reservoirs  / hill, lake /
     t  towns       / north, west, south / ;
parameters
     yield(r)  megalitres a day that a reservoir gives  / hill 45, lake 60 /
     need(t)   megalitres a day that a town takes       / north 25, west 30, south 35 / ;
table pumping(r,t)  dollars for a megalitre
            north  west  south
     hill      12    18     25
     lake      30    21     15 ;

positive variable flow(r,t)  megalitres a day ;
variable cost                dollars a day ;
equations bill, within(r), met(t) ;
bill..       cost =e= sum((r,t), pumping(r,t)*flow(r,t)) ;
within(r)..  sum(t, flow(r,t)) =l= yield(r) ;
met(t)..     sum(r, flow(r,t)) =g= need(t) ;
model supply /all/ ;
option limrow = 0, limcol = 0 ;
solve supply using lp minimizing cost ;
abort$(supply.modelstat <> 1) "there is no plan for a normal year" ;
