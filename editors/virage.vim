" Vim syntax of virage's rule files. Made by editors/make of the words in help/language.
if exists("b:current_syntax")
  finish
endif
syntax case match
syntax iskeyword @,48-57,_,-
syntax match virageDefined "^\s*\a\k*\ze\s*="
syntax keyword virageComposition rev seq par loop until
syntax keyword virageModule elect defer plurality pass drop max min below upto
syntax match virageScore "\%((\s*\)\@<=\%(plurality\|borda\|copeland\|minimax\|condorcet\)\ze\s*)"
syntax match virageNumber "\<\d\+\>"
syntax match virageComment "#.*$" contains=@Spell
setlocal commentstring=#\ %s
highlight default link virageDefined Identifier
highlight default link virageComposition Keyword
highlight default link virageModule Function
highlight default link virageScore Type
highlight default link virageNumber Number
highlight default link virageComment Comment
let b:current_syntax = "virage"
