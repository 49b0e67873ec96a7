" Vim syntax of traces, which say what a run did.
if exists('b:current_syntax')
  finish
endif
syntax case match
syntax iskeyword 33,35-126

" The words stand in the order of the language's list; tools/check-editors.sh compares them.
syntax keyword ml5traceWorld home server panel
syntax keyword ml5traceCause spent region table
syntax keyword ml5traceCall say set text on read write watch show
syntax keyword ml5traceNone none
syntax keyword ml5traceMessage send take
syntax keyword ml5traceEvent fire event
syntax keyword ml5traceStop refuse stop stopped wrong
syntax keyword ml5traceRest rest

syntax match ml5traceNumber /\<\d\+\>/
syntax match ml5traceEscape /\\["\\nt]/ contained
syntax region ml5traceText start=/"/ skip=/\\["\\]/ end=/"/ oneline contains=ml5traceEscape

highlight default link ml5traceWorld StorageClass
highlight default link ml5traceCause Error
highlight default link ml5traceCall Function
highlight default link ml5traceNone Constant
highlight default link ml5traceMessage Keyword
highlight default link ml5traceEvent Statement
highlight default link ml5traceStop Error
highlight default link ml5traceRest PreProc
highlight default link ml5traceNumber Number
highlight default link ml5traceEscape SpecialChar
highlight default link ml5traceText String

let b:current_syntax = 'ml5trace'
