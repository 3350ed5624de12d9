// Sums and products of names and numbers, with brackets.
%start Sum
%token 'ID' 'NUM'
%%
Sum: Sum '+' Product
   | Sum '-' Product
   | Product
   ;

Product: Product '*' Value
       | Product '/' Value
       | Value
       ;

Value: 'ID'
     | 'NUM'
     | '(' Sum ')'
     ;
