* On top of the normal year: what a dry year costs, and what it costs when a town grows, each by itself.
* gams25 --restart base.sav study.gms
set s  studies / dry, growth / ;
parameters
     lost(s,r)   share of a yield that is lost   / dry.hill 0.2 /
     grown(s,t)  share by which a need grows     / growth.south 0.2 /
     given(r)    yields of the normal year
     taken(t)    needs of the normal year
     sent(r,t)   flows of the normal year ;
scalar paid  cost of the normal year ;
given(r) = yield(r) ;
taken(t) = need(t) ;
sent(r,t) = flow.l(r,t) ;
paid = cost.l ;

parameters
     more(s)       dollars a day beyond the normal year
     moved(s,r,t)  change of a flow ;
option solprint = off ;
loop(s,
     yield(r) = given(r)*(1 - lost(s,r)) ;
     need(t) = taken(t)*(1 + grown(s,t)) ;
     solve supply using lp minimizing cost ;
     abort$(supply.modelstat <> 1) "there is no plan" ;
     more(s) = cost.l - paid ;
     moved(s,r,t) = flow.l(r,t) - sent(r,t) ;
) ;
display paid, more, moved ;
