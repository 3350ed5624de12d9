%{
#include "sums.h"
%}
%union { int number; }
%token <number> NUM 300 "number"
%left '+'
%%
sum-of: "number" { $$ = $1; }
  | sum-of { note("}"); } '+' NUM { $$ = $1 + $4; }
%%
int main(void) { return yyparse(); }
