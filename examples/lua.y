// Programs much as those of Lua. Statements begin with a word or a name, so that no `(` begins one.
%start Block
%token NAME NUMBER STRING

%epp NAME "a name"
%epp NUMBER "a number"
%epp STRING "a string"

%%
Block: Stats
    | Stats 'return'
    | Stats 'return' Exprs
    ;

Stats: %empty
    | Stats Stat
    ;

Stat: ';'
    | Head
    | Heads '=' Exprs
    | 'local' Names
    | 'local' Names '=' Exprs
    | 'local' 'function' NAME Body
    | 'function' FunctionName Body
    | 'do' Block 'end'
    | 'while' Or 'do' Block 'end'
    | 'repeat' Block 'until' Or
    | 'if' Or 'then' Block Else 'end'
    | 'for' NAME '=' Or ',' Or Step 'do' Block 'end'
    | 'for' Names 'in' Exprs 'do' Block 'end'
    | 'break'
    ;

Else: %empty
    | 'else' Block
    | 'elseif' Or 'then' Block Else
    ;

Step: %empty
    | ',' Or
    ;

FunctionName: NAME
    | FunctionName '.' NAME
    | FunctionName ':' NAME
    ;

Body: '(' Parameters ')' Block 'end' ;

Parameters: %empty
    | Names
    | Names ',' '...'
    | '...'
    ;

Names: NAME
    | Names ',' NAME
    ;

Heads: Head
    | Heads ',' Head
    ;

Head: NAME
    | Head Suffix
    ;

Paren: '(' Or ')'
    | Paren Suffix
    ;

Suffix: '.' NAME
    | '[' Or ']'
    | Arguments
    | ':' NAME Arguments
    ;

Arguments: '(' ')'
    | '(' Exprs ')'
    | Table
    | STRING
    ;

Table: '{' '}'
    | '{' Fields '}'
    | '{' Fields Separator '}'
    ;

Fields: Field
    | Fields Separator Field
    ;

Separator: ',' | ';' ;

Field: Or
    | NAME '=' Or
    | '[' Or ']' '=' Or
    ;

Exprs: Or
    | Exprs ',' Or
    ;

Or: And | Or 'or' And ;

And: Compared | And 'and' Compared ;

Compared: Joined | Compared Comparison Joined ;

Comparison: '==' | '~=' | '<' | '<=' | '>' | '>=' ;

Joined: Sum | Sum '..' Joined ;

Sum: Product | Sum '+' Product | Sum '-' Product ;

Product: Signed | Product '*' Signed | Product '/' Signed | Product '%' Signed ;

Signed: Power | 'not' Signed | '-' Signed | '#' Signed ;

Power: Simple | Simple '^' Signed ;

Simple: 'nil' | 'true' | 'false' | NUMBER | STRING | '...'
    | Table
    | 'function' Body
    | Head
    | Paren
    ;
