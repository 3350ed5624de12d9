%grmtools{yacckind: Grmtools}
/* JSON over the names of its tokens. The types, the actions and the part behind the last `%%` are kept as texts:
   whoever makes a program of this file reads them. */
%start Value
%token STRING NUMBER
%token true false null
%parse-param depth: usize
%%
Value -> Json: Object { Json::Object($1) }
    | Array { Json::Array($1) }
    | STRING { Json::Text($1) }
    | NUMBER { Json::Number($1) }
    | true { Json::Flag(true) }
    | false { Json::Flag(false) }
    | null { Json::Nothing }
    ;

Object -> Vec<Member>:
      '{' '}' { Vec::new() }
    | '{' Members '}' { $2 }
    ;

Members -> Vec<Member>:
      Member { vec![$1] }
    | Members ',' Member { with($1, $3) }
    ;

Member -> Member: STRING ':' Value { Member { key: $1, value: $3 } };

Array -> Vec<Json>:
      '[' ']' { Vec::new() }
    | '[' Elements ']' { $2 }
    ;

Elements -> Vec<Json>:
      Value { vec![$1] }
    | Elements ',' Value { with($1, $3) }
    ;
%%
struct Member {
    key: String,
    value: Json,
}
