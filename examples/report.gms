* A table of sales, and a report on it, quarter by quarter and region by region. There is nothing to solve.
sets
     r  regions   / east, west, south /
     q  quarters  / q1*q4 /
     peak(r,q)    the best quarters of a region ;
table sales(r,q)  in thousands
             q1     q2     q3     q4
     east   120    135    128    150
     west    80     96    110
     south   64     64     58     64 ;
parameters sold(q), growth(q), best(r), share(r,q) ;
scalars running, all_sold ;

sold(q) = sum(r, sales(r,q)) ;
growth(q)$sold(q-1) = 100*(sold(q)/sold(q-1) - 1) ;
all_sold = sum(q, sold(q)) ;

loop(q,
  running = running + sold(q);
  share(r,q) = 100*sales(r,q)/sold(q);
  display running
) ;
loop(r,
  best(r) = smax(q, sales(r,q));
  peak(r,q) = yes$(sales(r,q) = best(r))
) ;
abort$(running <> all_sold) "the report does not add up", running, all_sold ;
option decimals = 1 ;
display sold, growth, share, best, peak ;
