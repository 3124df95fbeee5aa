" Checks a document of the language dbp by tools/check of the repository that this file stands in, or by the command
" that g:dbp_check names.
if exists("current_compiler")
  finish
endif
let current_compiler = "dbp"

let s:beside = fnamemodify(resolve(expand("<sfile>:p")), ":h:h:h:h") . "/tools/check"
let s:command = shellescape(get(g:, "dbp_check", s:beside)) . " %:S"
execute "CompilerSet makeprg=" . escape(s:command, " \\|\"")
CompilerSet errorformat=%f:%l:%c:\ %trror:\ %m,%f:%l:%c:\ %tarning:\ %m,%f:%l:%c:\ %tote:\ %m
" Lines of the document, which the checker shows under a problem.
CompilerSet errorformat+=%-G%*[\ 0-9]\|%.%#
