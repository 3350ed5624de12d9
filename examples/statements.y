/* Statements: blocks, loops, and parts that may be missing, each a rule with an empty alternative. */
%start Program
%token if else while let return
%token ID NUM
%token COMMENT

%epp ID "a name"
%epp NUM "a number"
%avoid_insert COMMENT

// A lexer may give comments; no rule takes them.
%expect-unused COMMENT

// Behind `if ( .. ) if ( .. ) ..` an `else` goes with the nearer `if`: the conflict is settled by the shift.
%expect 1

%%
Program: Statements;

Statements: %empty
          | Statements Statement
          ;

Statement: '{' Statements '}'
         | if '(' Expr ')' Statement Else
         | while '(' Expr ')' Statement
         | let ID Initial ';'
         | ID '=' Expr ';'
         | return Result ';'
         | ';'
         ;

Else: %empty
    | else Statement
    ;

Initial: %empty
       | '=' Expr
       ;

Result: %empty
      | Expr
      ;

Expr: Expr '+' Operand
    | Expr '<' Operand
    | Operand
    ;

Operand: ID
       | NUM
       | '(' Expr ')'
       ;
