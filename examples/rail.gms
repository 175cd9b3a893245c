* How grain goes by rail from three silos to two ports, over junctions, on lines that take only so
* many tons a week. The marginal of a line says what one ton more on it would save.
sets
     n        places    / west_silo, mid_silo, east_silo, fork, river, hill, north_port, south_port /
     line(n,n)  lines that there are ;
alias(n,m) ;
parameter net(n)  tons a week that come in or go out
     / west_silo 900, mid_silo 700, east_silo 600, north_port -1100, south_port -1100 / ;

table limit(n,n)  tons a week that a line takes
                   fork   river   hill   north_port   south_port
     west_silo      700     500
     mid_silo       400     300    400
     east_silo              200    500
     fork                   300             900
     river                         200      400          600
     hill                                                800 ;
table cost(n,n)  dollars a ton
                   fork   river   hill   north_port   south_port
     west_silo        9      12
     mid_silo         7       6     10
     east_silo               11      5
     fork                     4              14
     river                           3       13           12
     hill                                                 15 ;
line(n,m) = yes$limit(n,m) ;

positive variable ton(n,n) ;
variable bill ;
ton.up(n,m)$line(n,m) = limit(n,m) ;
equations total, place(n) ;
total..     bill =e= sum((n,m)$line(n,m), cost(n,m)*ton(n,m)) ;
place(n)..  sum(m$line(n,m), ton(n,m)) - sum(m$line(m,n), ton(m,n)) =e= net(n) ;
model rail / all / ;
solve rail using lp minimizing bill ;
abort$(rail.modelstat <> 1) "the lines do not take the grain" ;

parameters sent(n,n), full(n,n)  what a ton more on a full line would save ;
sent(n,m) = ton.l(n,m) ;
full(n,m)$(line(n,m) and ton.l(n,m) = limit(n,m)) = -ton.m(n,m) ;
display sent, full, place.m ;
