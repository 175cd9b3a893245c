scalar area /120/, crop_yield /6.4/, price /185/;
scalar seed /95/, fertilizer /140/, fertilizer_price /0.62/, labor /18/, wage /11.5/;
scalar cost, margin, income, cost_of_ton, least_yield;

cost = seed + fertilizer*fertilizer_price + labor*wage;
margin = crop_yield*price - cost;
income = area*margin;
cost_of_ton = cost/crop_yield;
least_yield = cost/price;

display cost, margin, income,
        cost_of_ton, least_yield;
