// A grammar as it is first written down: no precedences, and a name alone is a statement and an expression. Its report
// explains 58 shift/reduce and 7 reduce/reduce conflicts in ten blocks.
%start Program
%token NUM NAME
%%
Program: %empty
       | Program Stmt ';'
       ;

Stmt: "if" Expr "then" Stmt
    | "if" Expr "then" Stmt "else" Stmt
    | "if" Expr "then" Stmt "elif" Expr "then" Stmt
    | "do" Stmt "while" Expr
    | "repeat" Stmt "until" Expr
    | "try" Stmt "catch" Stmt
    | '{' Stmt '}'
    | NAME '=' Expr
    | NAME
    | Expr
    ;

Expr: Expr '+' Expr
    | Expr '-' Expr
    | Expr '*' Expr
    | Expr '/' Expr
    | Expr '^' Expr
    | Expr '<' Expr
    | Expr '?' Expr ':' Expr
    | '-' Expr
    | '(' Expr ')'
    | NUM
    | NAME
    ;
