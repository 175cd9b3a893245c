* What a refinery makes of two crude oils in a day. Naphthas go into petrol as they are, or are reformed first; oils go into jet fuel
* and fuel oil as they are, or are cracked first; the residuum goes into these two, or is made into lube oil.
* Data: "Refinery optimisation" in H. P. Williams, "Model Building in Mathematical Programming".
* Published objective: 211,365 pounds.
sets
     c  crude oils  / crude1, crude2 /
     s  streams     / light_naphtha, medium_naphtha, heavy_naphtha, light_oil, heavy_oil, residuum
                      reformed, cracked_petrol, cracked_oil /
     p  products    / premium, regular, jet_fuel, fuel_oil, lube_oil /
     u  units       / reformer, cracker, lube_plant /
     petrol(p)      / premium, regular /
     mixed(p)       / premium, regular, jet_fuel /
     into(s,p)  streams that go into a product in any proportion
       / (light_naphtha,medium_naphtha,heavy_naphtha,reformed,cracked_petrol).(premium,regular)
         (light_oil,heavy_oil,residuum,cracked_oil).jet_fuel /
     feeds(s,u)  streams that a unit takes
       / (light_naphtha,medium_naphtha,heavy_naphtha).reformer, (light_oil,heavy_oil).cracker, residuum.lube_plant / ;
alias(s,from) ;
table gives(c,s)  barrels of a stream from a barrel of crude oil
               light_naphtha  medium_naphtha  heavy_naphtha  light_oil  heavy_oil  residuum
     crude1             0.10            0.20           0.20       0.12       0.20      0.13
     crude2             0.15            0.25           0.18       0.08       0.19      0.12 ;
table turns(s,s)  barrels of the second stream from a barrel of the first
                       reformed  cracked_petrol  cracked_oil
     light_naphtha         0.60
     medium_naphtha        0.52
     heavy_naphtha         0.45
     light_oil                             0.28         0.68
     heavy_oil                             0.20         0.75 ;
parameters
     buys(c)      barrels of crude oil that there are  / crude1 20000, crude2 30000 /
     size(u)      barrels that a unit takes            / reformer 10000, cracker 8000 /
     gain(p)      pounds a barrel  / premium 7, regular 6, jet_fuel 4, fuel_oil 3.5, lube_oil 1.5 /
     octane(s)    octane number    / light_naphtha 90, medium_naphtha 80, heavy_naphtha 70, reformed 115, cracked_petrol 105 /
     least(p)     octane number    / premium 94, regular 84 /
     pressure(s)  vapour pressure  / light_oil 1.0, heavy_oil 0.6, cracked_oil 1.5, residuum 0.05 /
     ratio(s)     parts of eighteen in fuel oil  / light_oil 10, cracked_oil 4, heavy_oil 3, residuum 1 / ;

positive variables crude(c), straight(s,p), fed(s,u), made(p) ;
variable profit ;
equations money, distil, stream(s), room(u), mix(p), knock(p), jet, lube, share ;
money..         profit =e= sum(p, gain(p)*made(p)) ;
distil..        sum(c, crude(c)) =l= 45000 ;
stream(s)..     sum(c, gives(c,s)*crude(c)) + sum((from,u)$feeds(from,u), turns(from,s)*fed(from,u)) =e=
                sum(p$into(s,p), straight(s,p)) + sum(u$feeds(s,u), fed(s,u)) + ratio(s)/18*made("fuel_oil") ;
room(u)$size(u)..  sum(s$feeds(s,u), fed(s,u)) =l= size(u) ;
mix(mixed)..    made(mixed) =e= sum(s$into(s,mixed), straight(s,mixed)) ;
knock(petrol).. sum(s$into(s,petrol), octane(s)*straight(s,petrol)) =g= least(petrol)*made(petrol) ;
jet..           sum(s$into(s,"jet_fuel"), pressure(s)*straight(s,"jet_fuel")) =l= made("jet_fuel") ;
lube..          made("lube_oil") =e= 0.5*fed("residuum","lube_plant") ;
share..         made("premium") =g= 0.4*made("regular") ;
crude.up(c) = buys(c) ;
made.lo("lube_oil") = 500 ;
made.up("lube_oil") = 1000 ;

model day /all/ ;
option limrow = 3, limcol = 0 ;
solve day using lp maximizing profit ;
abort$(day.modelstat <> 1) "no plan" ;
display crude.l, made.l, straight.l, fed.l, stream.m ;
