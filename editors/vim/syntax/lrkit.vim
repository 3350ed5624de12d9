" Grammar files of lrkit.
if exists("b:current_syntax")
  finish
endif
syntax match lrkitSection "%%"
syntax match lrkitDeclaration "%\(start\|actiontype\|parse-param\|parse-generics\|epp\|expect-rr\|expect-unused\|expect\|token\|left\|right\|nonassoc\|avoid_insert\|implicit_tokens\|grmtools\)\([A-Za-z_-]\)\@!"
syntax match lrkitWord "%\(prec\|empty\)\([A-Za-z_-]\)\@!"
syntax match lrkitRule "[A-Za-z_.][A-Za-z0-9_.]*\(\s*\(->[^:]*\)\?:\)\@="
syntax match lrkitToken "'.[^']*'"
syntax match lrkitToken "\".[^\"]*\""
syntax match lrkitNumber "\<[0-9]\+\>"
syntax match lrkitSign "[:|;?]\|->"
syntax match lrkitComment "//.*$"
syntax region lrkitComment start="/\*" end="\*/"
syntax region lrkitAction start="{" end="}" contains=lrkitAction
highlight default link lrkitSection PreProc
highlight default link lrkitDeclaration Keyword
highlight default link lrkitWord Keyword
highlight default link lrkitRule Function
highlight default link lrkitToken String
highlight default link lrkitNumber Number
highlight default link lrkitSign Operator
highlight default link lrkitComment Comment
highlight default link lrkitAction Special
let b:current_syntax = "lrkit"
