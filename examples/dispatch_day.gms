* Which units run in each hour of a day. Wind is free, the river has water for some hours, and pumps
* store energy for later hours. The marginal of a balance is the price of a megawatt hour then.
sets
     h  hours  / h1*h24 /
     u  units  / coal, gas, turbine, hydro / ;
parameters
     size(u)  greatest output in megawatts         / coal 450, gas 350, turbine 200, hydro 180 /
     fuel(u)  cost of a megawatt hour in dollars   / coal 24, gas 38, turbine 71, hydro 2 /
     ramp(u)  megawatts up or down from hour to hour  / coal 60, gas 150, turbine inf, hydro inf /
     load(h)  megawatts that are used
       / h1  620, h2  590, h3  575, h4  570, h5  585, h6  640, h7  740, h8  850
         h9  905, h10 920, h11 930, h12 925, h13 910, h14 900, h15 890, h16 895
         h17 940, h18 1010, h19 1050, h20 1020, h21 950, h22 860, h23 760, h24 680 /
     wind(h)  megawatts that blow
       / h1  140, h2  150, h3  155, h4  160, h5  150, h6  130, h7  110, h8   90
         h9   70, h10  60, h11  55, h12  60, h13  70, h14  80, h15  95, h16 100
         h17  90, h18  70, h19  60, h20  75, h21 100, h22 120, h23 130, h24 140 / ;
scalars
     water   megawatt hours of hydro in a day            / 2000 /
     pumped  share of what the pumps take that is stored  / 0.75 /
     start   megawatt hours in the store before and after the day  / 200 / ;

positive variables make(u,h), used(h), pump(h), out(h), stored(h) ;
variable cost ;
make.up(u,h) = size(u) ;
used.up(h) = wind(h) ;
pump.up(h) = 100 ;
out.up(h) = 100 ;
stored.up(h) = 600 ;
stored.lo("h24") = start ;

equations total, balance(h), rise(u,h), fall(u,h), store(h), river ;
total..       cost =e= sum((u,h), fuel(u)*make(u,h)) ;
balance(h)..  sum(u, make(u,h)) + used(h) + out(h) - pump(h) =e= load(h) ;
rise(u,h)$(ramp(u) < inf and ord(h) > 1)..  make(u,h) - make(u,h-1) =l= ramp(u) ;
fall(u,h)$(ramp(u) < inf and ord(h) > 1)..  make(u,h-1) - make(u,h) =l= ramp(u) ;
store(h)..    stored(h) =e= stored(h-1) + start$(ord(h) = 1) + pumped*pump(h) - out(h) ;
river..       sum(h, make("hydro",h)) =l= water ;
model day / all / ;
option limrow = 2, limcol = 0 ;
solve day using lp minimizing cost ;
abort$(day.modelstat <> 1) "no plan for the day" ;

parameters price(h), energy(u)  megawatt hours of the day ;
price(h) = balance.m(h) ;
energy(u) = sum(h, make.l(u,h)) ;
option decimals = 2 ;
display price, energy, stored.l ;
