scalar capacity /250/, generation /1423500/, hours /8760/;
scalar investment /1200/, charge_rate /0.09/, upkeep /25/;
scalar heat_rate /9.5/, fuel_price /3.2/;
scalar load_factor, capacity_cost, energy_cost;

load_factor = generation/capacity/hours;
capacity_cost = investment*charge_rate + upkeep;
energy_cost = 1000*capacity_cost/hours/load_factor + heat_rate*fuel_price;

display load_factor, capacity_cost, energy_cost;
