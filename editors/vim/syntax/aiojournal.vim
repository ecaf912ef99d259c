" Vim syntax file
" Language: journals and transcripts of aio (docs/JOURNAL.md)

if exists("b:current_syntax")
  finish
endif

syn case match
" a line that is none: no answer, and nothing that a run writes
syn match journalError "^.*$"
" answers, in a journal or behind `< ` in a trace
syn match journalAnswer "^ *\%(< \)\=\%(turn\|ok\|refused\|conn\|again\|broken\|data\|eof\|took\|child\|extra\)\%( .*\)\=$" contains=@journalWords
" what a trace has besides
syn match journalCall "^> .*$" contains=@journalWords
syn match journalRan "^\. .*$" contains=@journalWords
syn match journalSaid "^T\d\+\%( .*\)\=$" contains=journalTask
syn match journalTask "^T\d\+" contained
syn match journalEnd "^= .*$"
syn match journalStop "^! .*$"

syn cluster journalWords contains=journalMark,journalTurn,journalWord,journalId,journalNumber,journalLiteral
syn match journalMark "^ *[><.] " contained
syn match journalNumber "-\=\<\d\+\>" contained
syn match journalId "\<[TFGOLCPX]\d*\>" contained
syn keyword journalTurn turn select contained
syn keyword journalWord ok refused conn again broken data eof took child extra contained
syn keyword journalWord none listen accept connect recv send feed shut close end kill launch up down out outend err errend exit contained
syn keyword journalWord step wakeup groupdone timeout sleepdone made startread lost handlerdone readable writable childitem maindone contained
syn match journalEscape "\\[nrt\\\"]\|\\x\x\x" contained
syn match journalLiteral "b\=\"\%([^\"\\]\|\\.\)*\"" contained contains=journalEscape

hi def link journalError Error
hi def link journalAnswer Normal
hi def link journalCall Comment
hi def link journalRan Normal
hi def link journalMark Delimiter
hi def link journalTurn Keyword
hi def link journalWord Function
hi def link journalId Identifier
hi def link journalNumber Number
hi def link journalLiteral String
hi def link journalEscape SpecialChar
hi def link journalTask Identifier
hi def link journalEnd Statement
hi def link journalStop Exception

let b:current_syntax = "aiojournal"
