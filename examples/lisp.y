// Forms of a Lisp: names, numbers, strings, lists, and quoted forms.
%start File
%token NAME NUMBER STRING QUOTE

%epp NAME "a name"
%epp NUMBER "a number"
%epp STRING "a string"
%epp QUOTE "a quote"

%%
File: %empty
    | File Form
    ;

Form: NAME
    | NUMBER
    | STRING
    | QUOTE Form
    | '(' Forms ')'
    ;

Forms: %empty
    | Forms Form
    ;
