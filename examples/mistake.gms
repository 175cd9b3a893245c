scalar demand /1200/, price /4.5/;
scalar revenue;
revenue = demand*prize;
display revenue;
