* The cheapest blend of nine alloys that are for sale, with 30 percent of lead, 30 of zinc and 40 of tin.
* Data: the blending example in chapter 3 of G. B. Dantzig, "Linear Programming and Extensions" (1963), the model blend of GAMS's library.
* Published objective: 4.98 dollars a pound, with 0.6 of the alloy b and 0.4 of d.
sets
     a  alloys   / a, b, c, d, e, f, g, h, i /
     m  metals   / lead, zinc, tin / ;
table has(m,a)  percent of a metal in an alloy
             a    b    c    d    e    f    g    h    i
     lead   10   10   40   60   30   30   30   50   20
     zinc   10   30   50   30   30   40   20   40   30
     tin    80   60   10   10   40   30   50   10   50 ;
parameters
     price(a)  dollars a pound
       / a 4.1, b 4.3, c 5.8, d 6.0, e 7.6, f 7.5, g 7.3, h 6.9, i 7.3 /
     due(m)    percent in the blend  / lead 30, zinc 30, tin 40 / ;

positive variable part(a)  pounds of an alloy in a pound of blend ;
variable cost ;
equations pay, whole, mix(m) ;
pay..     cost =e= sum(a, price(a)*part(a)) ;
whole..   sum(a, part(a)) =e= 1 ;
mix(m)..  sum(a, has(m,a)*part(a)) =e= due(m) ;

model blend /all/ ;
option limrow = 3, limcol = 0 ;
solve blend using lp minimizing cost ;
abort$(blend.modelstat <> 1) "no blend" ;

* What a pound of each alloy is worth in the blend, by the marginals of its metals: none costs less than it is worth.
parameter worth(a) ;
worth(a) = whole.m + sum(m, has(m,a)*mix.m(m)) ;
display part.l, worth, price ;
