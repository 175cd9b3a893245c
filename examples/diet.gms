* The cheapest day's food that has enough of each nutrient.
sets
     f  foods      / bread, milk, beans, cabbage /
     n  nutrients  / energy, protein, calcium / ;
parameters
     price(f)  of 100 grams      / bread 0.25, milk 0.11, beans 0.48, cabbage 0.15 /
     most(f)   in 100 grams      / milk 8, beans 2, cabbage inf /
     least(n)  needed in a day   / energy 2400, protein 70, calcium 800 / ;
table has(f,n)  of 100 grams
                energy   protein   calcium
     bread        240        8         25
     milk          60      3.4        120
     beans        340       22        140
     cabbage       25      1.3         50 ;

positive variable eat(f)  in 100 grams ;
variable bill ;
equations pay, enough(n) ;
pay..        bill =e= sum(f, price(f)*eat(f)) ;
enough(n)..  sum(f, has(f,n)*eat(f)) =g= least(n) ;
eat.up(f)$most(f) = most(f) ;

model day /all/ ;
option limrow = 10, limcol = 0 ;
solve day using lp minimizing bill ;
abort$(day.modelstat <> 1) "no food" ;
parameter got(n) ;
got(n) = enough.l(n) ;
option decimals = 4 ;
display eat.l, got, enough.m ;
