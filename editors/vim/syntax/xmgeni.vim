" Vim syntax file
" Language: metagrammars of xmgeni (*.mg)
if exists("b:current_syntax")
  finish
endif

" A word may have `-` inside, so it is matched as a whole, and the words with a meaning behind it.
syntax match xmgeniWord /\%(\w\|[^\x00-\x7F]\)\%(\w\|[^\x00-\x7F]\|-\+\%(\w\|[^\x00-\x7F]\)\@=\)*/
syntax match xmgeniAttribute /\%(\w\|[^\x00-\x7F]\)\%(\w\|[^\x00-\x7F]\|-\+\%(\w\|[^\x00-\x7F]\)\@=\)*\ze\s*=/
syntax match xmgeniCall /\%(\w\|[^\x00-\x7F]\)\%(\w\|[^\x00-\x7F]\|-\+\%(\w\|[^\x00-\x7F]\)\@=\)*\ze\s*\[\s*\]/
syntax match xmgeniPredicate /\%(\w\|[^\x00-\x7F]\)\%(\w\|[^\x00-\x7F]\|-\+\%(\w\|[^\x00-\x7F]\)\@=\)*\ze(/

syntax match xmgeniKeyword /\<\%(class\|value\)\>\%(-*\%(\w\|[^\x00-\x7F]\)\)\@!/ nextgroup=xmgeniClass skipwhite skipempty
syntax match xmgeniKeyword /\<\%(import\|export\|declare\)\>\%(-*\%(\w\|[^\x00-\x7F]\)\)\@!/
syntax match xmgeniClass /\%(\w\|[^\x00-\x7F]\)\%(\w\|[^\x00-\x7F]\|-\+\%(\w\|[^\x00-\x7F]\)\@=\)*/ contained
syntax match xmgeniNode /\<node\>\%(-*\%(\w\|[^\x00-\x7F]\)\)\@!/
syntax match xmgeniHeader /^\s*\zs\%(type\|property\|feature\|use\)\>\%(-*\%(\w\|[^\x00-\x7F]\)\)\@!/
syntax match xmgeniHeader /\<\%(with\|dims\)\>\ze\s*(/
syntax match xmgeniList /\<\%(cat\|top\|bot\|color\|mark\)\ze\s*=/
syntax match xmgeniConstant /\%(\<color\s*=\s*\)\@20<=\%(black\|white\|red\)\>/
syntax match xmgeniConstant /\%(\<mark\s*=\s*\)\@20<=\%(anchor\|coanchor\|subst\|foot\|lex\|nadj\)\>/
syntax match xmgeniDimension /<\s*\%(syn\|sem\|iface\)\s*>/

syntax match xmgeniVariable /?\%(\w\|[^\x00-\x7F]\)\%(\w\|[^\x00-\x7F]\|-\+\%(\w\|[^\x00-\x7F]\)\@=\)*/
syntax match xmgeniOperator /->[*+]\?/
syntax match xmgeniOperator />>[*+]\?/
syntax match xmgeniOperator /\.\.\.+\?\|,,,/
syntax match xmgeniOperator /[|;]/
syntax match xmgeniString /"[^"\\[:cntrl:]]*"/
syntax match xmgeniComment /%.*$/ contains=@Spell

highlight default link xmgeniKeyword Statement
highlight default link xmgeniNode Statement
highlight default link xmgeniHeader PreProc
highlight default link xmgeniClass Type
highlight default link xmgeniCall Type
highlight default link xmgeniPredicate Function
highlight default link xmgeniAttribute Normal
highlight default link xmgeniList Special
highlight default link xmgeniDimension PreProc
highlight default link xmgeniConstant Constant
highlight default link xmgeniVariable Identifier
highlight default link xmgeniOperator Operator
highlight default link xmgeniString String
highlight default link xmgeniComment Comment

let b:current_syntax = "xmgeni"
