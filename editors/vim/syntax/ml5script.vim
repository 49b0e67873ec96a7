" Vim syntax of scripts, which say how a program is run.
if exists('b:current_syntax')
  finish
endif
syntax case match
syntax iskeyword 33,35-126

" The words stand in the order of the language's list; tools/check-editors.sh compares them.
syntax keyword ml5scriptKeyword sessions steps region store event raw order
syntax keyword ml5scriptWorld home server panel

syntax match ml5scriptNumber /\<\d\+\>/
syntax match ml5scriptSite /\<\d\+\.\%(home\|server\|panel\)\>/
syntax match ml5scriptEscape /\\["\\nt]/ contained
syntax match ml5scriptFault /\\[^"\\nt]/ contained
syntax region ml5scriptText start=/"/ skip=/\\["\\]/ end=/"/ oneline contains=ml5scriptEscape,ml5scriptFault
syntax match ml5scriptComment /^\s*#.*$/

highlight default link ml5scriptKeyword Statement
highlight default link ml5scriptWorld StorageClass
highlight default link ml5scriptNumber Number
highlight default link ml5scriptSite StorageClass
highlight default link ml5scriptEscape SpecialChar
highlight default link ml5scriptFault Error
highlight default link ml5scriptText String
highlight default link ml5scriptComment Comment

let b:current_syntax = 'ml5script'
