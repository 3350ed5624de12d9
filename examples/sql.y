// Statements much as those of SQL, each with a `;` behind it. Words are written in any letters.
%start Script
%token NAME NUMBER STRING

%epp NAME "a name"
%epp NUMBER "a number"
%epp STRING "a string"

%%
Script: %empty
    | Script Statement ';'
    ;

Statement: Query
    | 'INSERT' 'INTO' NAME Columns 'VALUES' Rows
    | 'INSERT' 'INTO' NAME Columns Query
    | 'UPDATE' NAME 'SET' Settings Where
    | 'DELETE' 'FROM' NAME Where
    | 'CREATE' 'TABLE' NAME '(' Definitions ')'
    ;

Columns: %empty | '(' Names ')' ;

Names: NAME | Names ',' NAME ;

Rows: Row | Rows ',' Row ;

Row: '(' Exprs ')' ;

Settings: Setting | Settings ',' Setting ;

Setting: NAME '=' Expr ;

Definitions: Definition | Definitions ',' Definition ;

Definition: NAME Type Constraints
    | 'PRIMARY' 'KEY' '(' Names ')'
    ;

Type: NAME | NAME '(' NUMBER ')' ;

Constraints: %empty | Constraints Constraint ;

Constraint: 'NOT' 'NULL'
    | 'PRIMARY' 'KEY'
    | 'DEFAULT' Primary
    | 'REFERENCES' NAME '(' NAME ')'
    ;

Query: Select Order Limit ;

Select: 'SELECT' Distinct Items From Where Group ;

Distinct: %empty | 'DISTINCT' ;

Items: '*' | Listed ;

Listed: Item | Listed ',' Item ;

Item: Expr | Expr 'AS' NAME ;

From: %empty | 'FROM' Tables ;

Tables: Table | Tables ',' Table | Tables Join Table 'ON' Expr ;

Join: 'JOIN' | 'LEFT' 'JOIN' ;

Table: NAME | NAME 'AS' NAME | '(' Query ')' 'AS' NAME ;

Where: %empty | 'WHERE' Expr ;

Group: %empty | 'GROUP' 'BY' Exprs | 'GROUP' 'BY' Exprs 'HAVING' Expr ;

Order: %empty | 'ORDER' 'BY' Sorted ;

Sorted: Sort | Sorted ',' Sort ;

Sort: Expr | Expr 'ASC' | Expr 'DESC' ;

Limit: %empty | 'LIMIT' NUMBER | 'LIMIT' NUMBER 'OFFSET' NUMBER ;

Exprs: Expr | Exprs ',' Expr ;

Expr: Both | Expr 'OR' Both ;

Both: Negated | Both 'AND' Negated ;

Negated: Test | 'NOT' Negated ;

Test: Sum
    | Sum Comparison Sum
    | Sum 'IS' 'NULL'
    | Sum 'IS' 'NOT' 'NULL'
    | Sum 'LIKE' Sum
    | Sum 'BETWEEN' Sum 'AND' Sum
    | Sum 'IN' '(' Exprs ')'
    | Sum 'IN' '(' Query ')'
    | 'EXISTS' '(' Query ')'
    ;

Comparison: '=' | '<>' | '<' | '<=' | '>' | '>=' ;

Sum: Product | Sum '+' Product | Sum '-' Product | Sum '||' Product ;

Product: Signed | Product '*' Signed | Product '/' Signed ;

Signed: Primary | '-' Signed ;

Primary: NUMBER
    | STRING
    | 'NULL'
    | NAME
    | NAME '.' NAME
    | NAME '(' ')'
    | NAME '(' '*' ')'
    | NAME '(' Exprs ')'
    | 'CASE' Whens 'END'
    | 'CASE' Whens 'ELSE' Expr 'END'
    | '(' Expr ')'
    ;

Whens: When | Whens When ;

When: 'WHEN' Expr 'THEN' Expr ;
