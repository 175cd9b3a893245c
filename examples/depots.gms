* How tons go from two factories to six customers in a month, straight or by way of four depots, each of which takes only so much.
* Data: "Distribution 1" in H. P. Williams, "Model Building in Mathematical Programming".
* Published objective: 198,500 pounds.
sets
     n     places     / liverpool, brighton, newcastle, birmingham, london, exeter, c1*c6 /
     f(n)  factories  / liverpool, brighton /
     d(n)  depots     / newcastle, birmingham, london, exeter /
     c(n)  customers  / c1*c6 / ;
alias(n,k) ;

* Pounds a ton; where there is no number nothing can go.
table rate(n,n)
                 newcastle  birmingham  london  exeter   c1   c2   c3   c4   c5   c6
     liverpool         0.5         0.5     1.0     0.2  1.0       1.5  2.0       1.0
     brighton                      0.3     0.5     0.2  2.0
     newcastle                                               1.5  0.5  1.5       1.0
     birmingham                                         1.0  0.5  0.5  1.0  0.5
     london                                                  1.5  2.0       0.5  1.5
     exeter                                                       0.2  1.5  0.5  1.5 ;
parameters
     most(n)  tons that a factory makes or a depot takes
       / liverpool 150000, brighton 200000, newcastle 70000, birmingham 50000, london 100000, exeter 40000 /
     need(n)  tons that a customer wants
       / c1 50000, c2 10000, c3 40000, c4 35000, c5 60000, c6 20000 / ;

positive variable send(n,n)  tons ;
variable cost ;
equations total, leaves(n), comes(n), through(n), gets(n) ;
total..       cost =e= sum((n,k)$rate(n,k), rate(n,k)*send(n,k)) ;
leaves(f)..   sum(k$rate(f,k), send(f,k)) =l= most(f) ;
comes(d)..    sum(k$rate(k,d), send(k,d)) =l= most(d) ;
through(d)..  sum(k$rate(k,d), send(k,d)) =e= sum(k$rate(d,k), send(d,k)) ;
gets(c)..     sum(k$rate(k,c), send(k,c)) =e= need(c) ;

model network /all/ ;
option limrow = 2, limcol = 0 ;
solve network using lp minimizing cost ;
abort$(network.modelstat <> 1) "no plan" ;
display send.l, comes.m, gets.m ;
