// Sums that group to both sides.
%start Sum
%token NUM
%%
Sum: Sum '+' Sum
   | NUM
   ;
