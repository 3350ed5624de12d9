%grmtools{yacckind: Eco}
// Queries in whose texts space and comments may stand anywhere: before the first token, and behind each one. The rules
// don't name them; the kit adds the rule `~` of lists of them behind each token, and `^~` above the start rule.
%implicit_tokens SPACE COMMENT
%start Query
%token NAME NUM
%left 'or'
%left 'and'
%right 'not'
%nonassoc '=' '<'
%%
Query: 'select' Columns 'from' NAME Filter;

Columns: '*'
       | Names
       ;

Names: NAME
     | Names ',' NAME
     ;

Filter: %empty
      | 'where' Test
      ;

Test: Test 'or' Test
    | Test 'and' Test
    | Test '=' Test
    | Test '<' Test
    | 'not' Test
    | '(' Test ')'
    | NAME
    | NUM
    ;
