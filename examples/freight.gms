scalar distance /480/, payload /22.5/, handling /2.25/, backhaul /-0.9/;
scalar fuel_use /0.35/, fuel_price /1.60/, wage /24/, speed /60/, rail_rate /0.0625/;
scalar trip_cost, road_cost, rail_cost, difference;

trip_cost = 2*distance*fuel_use*fuel_price + 2*distance/speed*wage;
road_cost = trip_cost/payload + handling + backhaul;
rail_cost = distance*rail_rate + 2*handling;
difference = rail_cost - road_cost;

display trip_cost;
display road_cost, rail_cost, difference;
