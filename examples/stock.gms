* What a factory makes in each month, and what it carries over, where the demand of some months passes what it can make.
* The marginal of a month's balance is what one unit more would cost in that month.
set t  months  / jan, feb, mar, apr, may, jun / ;
parameters
     demand(t)  / jan 40, feb 60, mar 90, apr 120, may 80, jun 50 /
     price(t)   of making a unit  / jan 10, feb 10, mar 11, apr 12, may 12, jun 10 / ;
scalars
     size   units made in a month at most     /85/
     start  units there are before the first  /20/
     hold   cost of a unit carried over a month /0.5/ ;

positive variables make(t), store(t) ;
variable cost ;
equations total, carry(t) ;
total..     cost =e= sum(t, price(t)*make(t) + hold*store(t)) ;
carry(t)..  store(t-1) + make(t) + start$(ord(t) = 1) =e= demand(t) + store(t) ;
make.up(t) = size ;

model plan /all/ ;
option limrow = 3, limcol = 0 ;
solve plan using lp minimizing cost ;
abort$(plan.modelstat <> 1) "no plan" ;

* What stands in store by adding up, month after month: it is what the plan says.
parameter adds(t), off(t) ;
scalar so_far ;
so_far = start ;
loop(t, so_far = so_far + make.l(t) - demand(t); adds(t) = so_far) ;
off(t) = adds(t) - store.l(t) ;
display make.l, adds, off, carry.m ;
