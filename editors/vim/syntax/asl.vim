" The syntax of ASL1.
" Written by tools/editors/generate.py from the definitions of the lexemes and from the table of the grammar.
if exists('b:current_syntax')
  finish
endif
syntax case match
syntax iskeyword 48-57,65-90,97-122,_

syntax keyword aslDeclaration accessor constant func getter impdef implementation let pure readonly recurselimit setter subtypes type var
syntax keyword aslStatement assert begin case catch do downto else elsif end for if looplimit of otherwise pass print println repeat return then throw to try unreachable until when where while
syntax keyword aslWordOperator AND DIV DIVRM EOR IN MOD NOT OR XOR as
syntax keyword aslType array bit bits boolean enumeration exception integer record
syntax keyword aslBoolean FALSE TRUE
syntax keyword aslLeftOut ARBITRARY collection config noreturn pragma real string
syntax keyword aslLibrary UInt SInt Zeros Ones ZeroExtend SignExtend IsZero IsOnes Len Abs Min Max

syntax match aslStray /[^ \t\r]/
syntax match aslName /[A-Za-z_][0-9A-Za-z_]*/
syntax match aslReservedName /__[0-9A-Za-z_]*/
syntax match aslDecimal /[0-9][0-9_]*/
syntax match aslHexadecimal /0x[0-9A-Fa-f][0-9A-Fa-f_]*/
syntax match aslOperator /!\|\*\|+\|-\|<\|>\|\^/
syntax match aslPunctuation /(\|)\|,\|\.\|:\|;\|=\|\[\|\]\|{\|}/
syntax match aslUnusedMark /\//
syntax match aslOperator /!=\|&&\|::\|<<\|<=\|==\|>=\|>>\|||/
syntax match aslPunctuation /\*:\|+:\|\.\.\|=>/
syntax match aslOperator /-->\|<->/
syntax match aslPunctuation /<=>/
syntax match aslMalformed /'[0-9A-Za-z_() ]*'\=/
syntax match aslMask /'\%([01x ]\|([01 ]*[01][01 ]*)\)*'/
syntax match aslBits /'[01 ]*'/
syntax match aslBadEscape /\\\|[^ -~]/ contained
syntax match aslEscape /\\[nt\\"]/ contained
syntax region aslString start=/"/ end=/"/ end=/$/ oneline contains=aslEscape,aslBadEscape
syntax match aslLineComment /\/\/.*/
syntax region aslBlockComment start=/\/\*/ end=/\*\//
syntax sync ccomment aslBlockComment

highlight default link aslDeclaration Keyword
highlight default link aslStatement Statement
highlight default link aslWordOperator Operator
highlight default link aslType Type
highlight default link aslBoolean Boolean
highlight default link aslLibrary Function
highlight default link aslDecimal Number
highlight default link aslHexadecimal Number
highlight default link aslBits Number
highlight default link aslMask SpecialChar
highlight default link aslString String
highlight default link aslEscape SpecialChar
highlight default link aslOperator Operator
highlight default link aslPunctuation Delimiter
highlight default link aslLineComment Comment
highlight default link aslBlockComment Comment
highlight default link aslLeftOut Error
highlight default link aslReservedName Error
highlight default link aslUnusedMark Error
highlight default link aslBadEscape Error
highlight default link aslMalformed Error
highlight default link aslStray Error

let b:current_syntax = 'asl'
