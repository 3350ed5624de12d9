// Expressions of a calculator: which operator binds closer is told by the order of the precedence lines.
%start Expr
%token NUM ID

%epp NUM "a number"
%epp ID "a name"
%avoid_insert NUM ID

%right '='
%left '||'
%left '&&'
%nonassoc '==' '<' '>'      // these don't chain
%left '+' '-'
%left '*' '/' '%'
%right SIGN                 /* no token: the level of signs alone */
%right '**'

%%
Expr: Expr '=' Expr
    | Expr '||' Expr
    | Expr '&&' Expr
    | Expr '==' Expr
    | Expr '<' Expr
    | Expr '>' Expr
    | Expr '+' Expr
    | Expr '-' Expr
    | Expr '*' Expr
    | Expr '/' Expr
    | Expr '%' Expr
    | '-' Expr %prec SIGN
    | '!' Expr %prec SIGN
    | Expr '**' Expr
    | '(' Expr ')'
    | ID '(' Args ')'
    | ID
    | NUM
    ;

Args: %empty
    | List
    ;

List: Expr
    | List ',' Expr
    ;
