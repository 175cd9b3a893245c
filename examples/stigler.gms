* The cheapest food of a year for one person, of twenty foods: the problem that G. J. Stigler set in
* 1945, and on which G. B. Dantzig's simplex method was tried.
* Data: section 27-1 of G. B. Dantzig, "Linear Programming and Extensions" (1963), the model diet of
* GAMS's library.
* Published objective: 39.66 dollars a year for wheat, liver, cabbage, spinach and navy beans.
*
* All twenty foods at once are Refused under bland and under dantzig: fractions on the way exceed
* 127 bits. So the plan begins with two foods. The marginals of its rows say what a dollar of each
* other food would save. The food that saves most is added, until none saves anything: then the
* marginals prove that the plan is the cheapest of all twenty.
sets
     f  foods      / wheat, cornmeal, milk, margarine, cheese, peanut_butter, lard, liver, pork, salmon, green_beans
                     cabbage, onions, potatoes, spinach, sweet_potatoes, peaches, prunes, lima_beans, navy_beans /
     n  nutrients  / energy, protein, calcium, iron, vit_a, vit_b1, vit_b2, niacin, vit_c /
     chosen(f)     foods that the plan may have ;
parameter least(n)  needed in a day
     / energy 3, protein 70, calcium 0.8, iron 12, vit_a 5, vit_b1 1.8, vit_b2 2.7, niacin 18, vit_c 75 / ;
table has(f,n)  in food for one dollar of 1939
                       energy  protein  calcium     iron    vit_a   vit_b1   vit_b2   niacin    vit_c
     wheat               44.7     1411      2.0      365              55.4     33.3      441
     cornmeal              36      897      1.7       99     30.9     17.4      7.9      106
     milk                 8.4      422     15.1        9       26        3     23.5       11       60
     margarine           20.6       17      0.6        6     55.8      0.2
     cheese               7.4      448     16.4       19     28.1      0.8     10.3        4
     peanut_butter       15.7      661        1       48               9.6      8.1      471
     lard                41.7                                 0.2               0.5        5
     liver                2.2      333      0.2      139    169.2      6.4     50.8      316      525
     pork                 4.4      249      0.3       37              18.2      3.6       79
     salmon               5.8      705      6.8       45      3.5        1      4.9      209
     green_beans          2.4      138      3.7       80       69      4.3      5.8       37      862
     cabbage              2.6      125        4       36      7.2        9      4.5       26     5369
     onions               5.8      166      3.8       59     16.6      4.7      5.9       21     1184
     potatoes            14.3      336      1.8      118      6.7     29.4      7.1      198     2522
     spinach              1.1      106               138    918.4      5.7     13.8       33     2755
     sweet_potatoes       9.6      138      2.7       54    290.7      8.4      5.4       83     1912
     peaches              8.5       87      1.7      173     86.8      1.2      4.3       55       57
     prunes              12.8       99      2.5      154     85.7      3.9      4.3       65      257
     lima_beans          17.4     1055      3.7      459      5.1     26.9     38.2       93
     navy_beans          26.9     1691     11.4      792              38.4     24.6      217 ;
positive variable x(f)  dollars a day ;
variable z              dollars a day in all ;
equations total, enough(n) ;
total..      z =e= sum(f$chosen(f), x(f)) ;
enough(n)..  sum(f$chosen(f), has(f,n)*x(f)) =g= least(n) ;
model diet / all / ;
option limrow = 0, limcol = 0 ;
set first(f)  / potatoes, milk / ;
chosen(f) = first(f) ;
set turn / 1*20 /, once / once / ;
parameter saves(f)  what a dollar of a food would save ;
scalar best / 1 / ;
loop(turn,
  loop(once$(best > 0),
    solve diet using lp minimizing z ;
    abort$(diet.modelstat <> 1) "no plan" ;
    saves(f) = sum(n, has(f,n)*enough.m(n)) - 1 ;
    best = smax(f, saves(f)) ;
    chosen(f)$(best > 0 and saves(f) = best) = yes
  )
) ;
abort$(best > 0) "more turns are needed" ;
parameter year(f)  dollars a year ;
year(f) = 365*x.l(f) ;
scalar whole  dollars a year in all ;
whole = 365*z.l ;
display year, whole, saves ;
