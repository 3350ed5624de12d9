// Nested lists of atoms, with quoted and dotted ones.
%%
Form: 'ATOM'
    | "'" Form
    | '(' ')'
    | '(' Forms ')'
    | '(' Forms '.' Form ')'
    ;

Forms: Form
     | Forms Form
     ;
