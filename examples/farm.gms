* Five years of a farm of 200 acres and its herd: what is sown on which land, what feed and how many hours of labour are bought, how
* many calves are reared and how many are sold, and for how many more cows houses are built. A heifer is a cow from two years on.
* Data: "Farm planning" in H. P. Williams, "Model Building in Mathematical Programming".
* Published objective: 121,719 pounds, the profits of the five years less what is still owed for houses.
*
* The fields stand first among the variables. Where the herd stands first, Bland's rule takes another way through the fractions, and
* some of them do not fit: the same plan is Refused then.
sets
     t  years             / y1*y5 /
     k  ages              / new, k1*k12 /
     young(k)  of heifers / new, k1 /
     milk(k)   of cows    / k2*k11 /
     g  groups of land that bears grain  / g1*g4 / ;
alias(t,v) ;
parameters
     acres(g)      of land              / g1 20, g2 30, g3 20, g4 10 /
     yields(g)     tons from an acre    / g1 1.1, g2 0.9, g3 0.8, g4 0.65 /
     lives(k)      part of an age that lives on to the next  / (new,k1) 0.95, (k2*k11) 0.98 /
     there(t,k)    animals left of the ten of each age that there were before the first year
     left(t,v,k)   part left in year t at the age k of the calves reared in year v ;
scalar installment  pounds a year for the house of a cow / 39.71 / ;

there("y1",k) = 10*lives(k-1) ;
left(t,t,"new") = 1 ;
loop(t,
  there(t+1,k) = lives(k-1)*there(t,k-1);
  left(t+1,v,k)$(ord(v) <= ord(t)) = lives(k-1)*left(t,v,k-1)
) ;

positive variables
     grain(t,g), beet(t)  acres
     grain_bought(t), grain_sold(t), beet_bought(t), beet_sold(t)  tons
     sold(t), reared(t), heifers(t), cows(t)  animals
     more_hours(t), houses(t), profit(t) ;
variable earned ;
equations total, births(t), heifers_there(t), cows_there(t), room(t), grain_fed(t), beet_fed(t), land(t), labour(t), money(t) ;
total..             earned =e= sum(t, profit(t) - installment*(4 + ord(t))*houses(t)) ;
births(t)..         reared(t) + sold(t) =e= 1.1/2*cows(t) ;
heifers_there(t)..  heifers(t) =e= sum(young, there(t,young) + sum(v, left(t,v,young)*reared(v))) ;
cows_there(t)..     cows(t) =e= sum(milk, there(t,milk) + sum(v, left(t,v,milk)*reared(v))) ;
room(t)..           heifers(t) + cows(t) =l= 130 + sum(v$(ord(v) <= ord(t)), houses(v)) ;
grain_fed(t)..      0.6*cows(t) + grain_sold(t) =l= sum(g, yields(g)*grain(t,g)) + grain_bought(t) ;
beet_fed(t)..       0.7*cows(t) + beet_sold(t) =l= 1.5*beet(t) + beet_bought(t) ;
land(t)..           sum(g, grain(t,g)) + beet(t) + 2/3*heifers(t) + cows(t) =l= 200 ;
labour(t)..         10*heifers(t) + 42*cows(t) + 4*sum(g, grain(t,g)) + 14*beet(t) =l= 5500 + more_hours(t) ;
money(t)..          profit(t) =e= 370*cows(t) + 30*1.1/2*cows(t) + 40*sold(t) + 120*there(t,"k12") + 75*grain_sold(t) + 58*beet_sold(t)
                    - 90*grain_bought(t) - 70*beet_bought(t) - 1.2*more_hours(t) - 4000 - 50*heifers(t) - 100*cows(t)
                    - 15*sum(g, grain(t,g)) - 10*beet(t) - installment*sum(v$(ord(v) <= ord(t)), houses(v)) ;
grain.up(t,g) = acres(g) ;
cows.lo("y5") = 50 ;
cows.up("y5") = 175 ;

model farm /all/ ;
option limrow = 1, limcol = 0 ;
solve farm using lp maximizing earned ;
abort$(farm.modelstat <> 1) "no plan" ;
display profit.l, cows.l, heifers.l, sold.l, grain.l, beet.l, labour.m ;
