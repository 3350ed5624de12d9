// A calculator's programs: assignments and expressions, each with a `;` behind it.
%start Program
%token NUM ID

%epp NUM "a number"
%epp ID "a name"

%right '='
%left '+' '-'
%left '*' '/'
%right SIGN                 /* no token: the level of signs alone */
%right '^'

%%
Program: %empty
    | Program Line
    ;

Line: Expr ';' ;

Expr: ID '=' Expr
    | Expr '+' Expr
    | Expr '-' Expr
    | Expr '*' Expr
    | Expr '/' Expr
    | '-' Expr %prec SIGN
    | Expr '^' Expr
    | '(' Expr ')'
    | ID
    | NUM
    ;
