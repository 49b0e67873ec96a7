" Vim syntax of ml5 programs. After a line %% stands a script.
if exists('b:current_syntax')
  finish
endif
syntax include @ml5Script syntax/ml5script.vim
unlet! b:current_syntax

syntax case match
syntax iskeyword 39,48-57,65-90,95,97-122

" The words stand in the order of the language's list; tools/check-editors.sh compares them.
syntax keyword ml5Declaration extern val fun main
syntax keyword ml5Function fn rec
syntax keyword ml5Keyword let in end do put leta lets
syntax keyword ml5Conditional if then else case of
syntax keyword ml5Constructor inl inr nil
syntax keyword ml5Move from get spawn hold here sham
syntax keyword ml5Operator fst snd ref str div
syntax keyword ml5Boolean true false
syntax keyword ml5Type at addr list unit bool int string
syntax keyword ml5World home server panel
syntax keyword ml5Primitive say set_text get_text on read write watch show

syntax match ml5Name /\a[A-Za-z0-9_']*/
syntax match ml5Number /\d\+/
syntax match ml5Symbol /:=\|::\|==\|=>\|->\|[-+*^<!|@~=]/
syntax match ml5Escape /\\["\\nt]/ contained
syntax match ml5Fault /\\[^"\\nt]/ contained
syntax region ml5Text start=/"/ skip=/\\["\\]/ end=/"/ oneline contains=ml5Escape,ml5Fault
syntax region ml5Comment start=/(\*/ end=/\*)/ contains=ml5Comment
syntax region ml5ScriptPart matchgroup=ml5Divider start=/^%%\r\?$/ end=/\%$/ contains=@ml5Script
syntax sync fromstart

highlight default link ml5Declaration Statement
highlight default link ml5Function Statement
highlight default link ml5Keyword Statement
highlight default link ml5Conditional Conditional
highlight default link ml5Constructor Constant
highlight default link ml5Move Keyword
highlight default link ml5Operator Operator
highlight default link ml5Boolean Boolean
highlight default link ml5Type Type
highlight default link ml5World StorageClass
highlight default link ml5Primitive Function
highlight default link ml5Number Number
highlight default link ml5Symbol Operator
highlight default link ml5Escape SpecialChar
highlight default link ml5Fault Error
highlight default link ml5Text String
highlight default link ml5Comment Comment
highlight default link ml5Divider PreProc

let b:current_syntax = 'ml5'
