* How much land each crop gets, where land and the work of three months are scarce.
sets
     c  crops   / wheat, maize, beets /
     m  months  / march, july, september / ;
parameters
     margin(c)  earned from a hectare  / wheat 480, maize 560, beets 900 /
     work(m)    hours of work there are / march 800, july 480, september 1200 / ;
table hours(m,c)  hours of work that a hectare takes
                 wheat   maize   beets
     march         4       6       14
     july          2       3       10
     september     6       8       20 ;
scalar land  hectares /120/ ;

positive variable area(c)  hectares of a crop ;
variable earned ;
equations income, field, labour(m) ;
income..     earned =e= sum(c, margin(c)*area(c)) ;
field..      sum(c, area(c)) =l= land ;
labour(m)..  sum(c, hours(m,c)*area(c)) =l= work(m) ;

model farm / income, field, labour / ;
solve farm using lp maximizing earned ;
abort$(farm.modelstat <> 1) "no plan" ;

parameter used(m)  hours that the plan takes ;
used(m) = sum(c, hours(m,c)*area.l(c)) ;
display area.l, used, field.m, labour.m ;
