* A bench earns 3, a desk 5. A bench takes 1 hour and 3 planks, a desk 2 hours and 1 plank; there are 14 hours and 15 planks.
* How far do these numbers hold?  gams25 --ranges workshop.gms
positive variables bench, desk;  variable profit;
equations money, hours, planks;
money..   profit =e= 3*bench + 5*desk;
hours..   bench + 2*desk =l= 14;
planks..  3*bench + desk =l= 15;
model shop /all/;
solve shop using lp maximizing profit;
abort$(shop.modelstat <> 1) "no plan";
