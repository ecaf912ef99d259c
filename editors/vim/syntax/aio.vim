" Vim syntax file
" Language: scripts of aio (docs/LANGUAGE.md)

if exists("b:current_syntax")
  finish
endif

syn case match
" what is no token: tabs and other bytes, a dot, a colon, a quote that isn't closed
syn match aioError "[^ ]"
syn match aioName "\<[A-Za-z_]\w*\>"
syn match aioCoroutine "\<[A-Za-z_]\w*\>" contained
syn match aioOperator "==\|!=\|<=\|>=\|//\|[=<>+*%-]"
syn match aioBracket "[()\[\],]"
syn match aioNumber "\<\d\+\>"
syn match aioNumberError "\<\d\+[A-Za-z_]\w*"

syn keyword aioDefine def nextgroup=aioCoroutine skipwhite
syn keyword aioStatement end yield from print raise return pass profile as
syn keyword aioBranch if else while
syn keyword aioException try except finally
syn keyword aioBlock with group timeout
syn keyword aioWord and or not
syn keyword aioConstant True False None
syn keyword aioFunction len str bytes text error kind message partial members
syn keyword aioRequest future set fail done cancelled result cancel cancelling uncancel current time spawn sleep
syn keyword aioRequest reschedule expired create extra listen connect read readexactly readuntil readline write
syn keyword aioRequest write_eof drain limits close wait_closed launch stderr wait returncode kill
syn keyword aioKind BaseException CancelledError Exception ArithmeticError OverflowError ZeroDivisionError LookupError
syn keyword aioKind IndexError OSError TimeoutError ConnectionError ConnectionResetError ConnectionRefusedError
syn keyword aioKind BrokenPipeError RuntimeError RecursionError EOFError IncompleteReadError TypeError ValueError
syn keyword aioKind NameError LimitOverrunError InvalidStateError ExceptionGroup

syn match aioEscape "\\[nrt\\\"]\|\\x\x\x" contained
syn match aioEscapeError "\\\%([nrt\\\"]\|x\x\x\)\@!." contained
syn match aioText "\"\%([^\"\\]\|\\.\)*\"" contains=aioEscape,aioEscapeError
syn match aioBytes "\<b\"\%([^\"\\]\|\\.\)*\"" contains=aioEscape,aioEscapeError
syn match aioComment "#.*$" contains=aioTodo
syn keyword aioTodo TODO FIXME contained

hi def link aioError Error
hi def link aioNumberError Error
hi def link aioEscapeError Error
hi def link aioName Identifier
hi def link aioCoroutine Function
hi def link aioOperator Operator
hi def link aioBracket Delimiter
hi def link aioNumber Number
hi def link aioDefine Keyword
hi def link aioStatement Statement
hi def link aioBranch Conditional
hi def link aioException Exception
hi def link aioBlock Statement
hi def link aioWord Operator
hi def link aioConstant Constant
hi def link aioFunction Function
hi def link aioRequest Function
hi def link aioKind Type
hi def link aioEscape SpecialChar
hi def link aioText String
hi def link aioBytes String
hi def link aioComment Comment
hi def link aioTodo Todo

let b:current_syntax = "aio"
