" Syntax of documents of the language dbp: docs/LANGUAGE.md of the repository.
" Of two groups that fit at the same place, Vim takes the one that stands later here; keywords go before all others.
if exists("b:current_syntax")
  finish
endif

syntax case match
syntax iskeyword @,48-57,_
syntax sync fromstart

" What makes no token.
syntax match dbpError /[^ \t\r]\|\r\ze./

" Tokens. A minus after a name, a number or a closing parenthesis is an operator; before a digit elsewhere it belongs to
" the number.
syntax match dbpSymbol /[=!<>]=\|[-=<>+*/%(,.]/
syntax match dbpSymbol /)/ nextgroup=dbpMinus skipwhite
syntax match dbpMinus /-/ contained
syntax match dbpNumber /-\=\d\+/ nextgroup=dbpMinus skipwhite
syntax match dbpError /-\=\d\+\h\w*/
syntax match dbpName /\h\w*/ nextgroup=dbpMinus skipwhite
syntax match dbpError /\h\w\{24,}/

" Keywords.
syntax keyword dbpHeader dbp policy fp edf until
syntax keyword dbpDeclaration input event task
syntax keyword dbpPart state sense read let next out
syntax keyword dbpClause every from on prio deadline cost at pre cpu when
syntax keyword dbpConditional if then else
syntax keyword dbpLogic and or not
syntax keyword dbpFunction min max
syntax keyword dbpSection done
syntax match dbpSection /\<\%(trace\|script\)\>/

" Comments. Their bytes must be allowed too.
syntax match dbpComment /#.*/ contains=dbpTodo,dbpBadByte
syntax keyword dbpTodo TODO FIXME XXX contained
syntax match dbpBadByte /[^ -~\t\r]\|\r\ze./ contained

syntax cluster dbpTokens contains=dbpError,dbpSymbol,dbpNumber,dbpName,dbpHeader,dbpDeclaration,dbpPart,dbpClause
syntax cluster dbpTokens add=dbpConditional,dbpLogic,dbpFunction,dbpSection,dbpComment

" The trace section: rows of cells, without comments, up to a line that is `script` or `done` alone.
syntax match dbpTraceLine /^\s*trace\s*\%(#.*\)\=\r\=$/ contains=dbpSection,dbpComment
      \ nextgroup=dbpTrace skipnl skipempty
syntax region dbpTrace contained start=/^\%(\s*\%(script\|done\)\s*\r\=$\)\@!/
      \ end=/^\ze\s*\%(script\|done\)\s*\r\=$/
      \ contains=dbpTraceError,dbpTraceComma,dbpTraceNumber,dbpTraceName,dbpTraceTime
syntax match dbpTraceError /[^ \t\r]\|\r\ze./ contained
syntax match dbpTraceComma /,/ contained
syntax match dbpTraceNumber /-\=\d\+/ contained
syntax match dbpTraceError /-\=\d\+\h\w*/ contained
syntax match dbpTraceName /\h\w*/ contained
syntax match dbpTraceTime /^\s*\zstime\ze\s*\%(,\|\r\=$\)/ contained

" The script section: steps, up to a line whose only token is `done`.
syntax match dbpScriptLine /^\s*script\s*\%(#.*\)\=\r\=$/ contains=dbpSection,dbpComment
      \ nextgroup=dbpScript skipnl skipempty
syntax region dbpScript contained start=/^\%(\s*done\s*\%(#.*\)\=\r\=$\)\@!/
      \ end=/^\ze\s*done\s*\%(#.*\)\=\r\=$/ contains=@dbpTokens,dbpStep
syntax match dbpStep /^\s*\zs\%(seen\|aim\|claim\|open\|start\|hear\|look\|take\|shut\|put\|end\)\>/ contained

highlight default link dbpError Error
highlight default link dbpBadByte Error
highlight default link dbpTraceError Error
highlight default link dbpSymbol Operator
highlight default link dbpMinus Operator
highlight default link dbpTraceComma Delimiter
highlight default link dbpNumber Number
highlight default link dbpTraceNumber Number
highlight default link dbpName Identifier
highlight default link dbpTraceName Identifier
highlight default link dbpTraceTime Keyword
highlight default link dbpHeader PreProc
highlight default link dbpSection PreProc
highlight default link dbpDeclaration Structure
highlight default link dbpPart Statement
highlight default link dbpClause Keyword
highlight default link dbpConditional Conditional
highlight default link dbpLogic Keyword
highlight default link dbpFunction Function
highlight default link dbpStep Statement
highlight default link dbpComment Comment
highlight default link dbpTodo Todo

let b:current_syntax = "dbp"
