" Decks of rtmrun. docs/CARDS.md has the cards.
if exists("b:current_syntax")
  finish
endif
syntax case match
syntax match rtmdeckComment "^\*.*$"
syntax match rtmdeckName "^[A-Z@#$][A-Z0-9@#$]\{0,7}\ze " nextgroup=rtmdeckOperation,rtmdeckBare skipwhite
syntax match rtmdeckIndent "^ \+" nextgroup=rtmdeckOperation,rtmdeckBare
" What follows these is a remark.
syntax match rtmdeckBare "\<\%(NOP\|RETURN\|PROG\|PEND\|OPER\|END\)\>" contained nextgroup=rtmdeckRemark
syntax match rtmdeckOperation "\<\%(REGION\|TASK\|SRB\|CANCEL\|LINK\|XCTL\|B\|IFCODE\|IFCLUP\|IFPERC\|ABEND\|ESTAEX\|SETFRR\|
      \SETRP\|RET15\|ATTACHX\|DETACH\|CALLRTM\|SCHEDULE\|WAIT\|WAITT\|POST\|GET\|FREE\|RESMGR\)\>" contained nextgroup=rtmdeckOperands skipwhite
syntax match rtmdeckOperands "\S\+" contained contains=rtmdeckKey,rtmdeckCode nextgroup=rtmdeckRemark
syntax match rtmdeckKey "\<[A-Z0-9]\+\ze=" contained
syntax match rtmdeckCode "\<\%(S\x\{3}\|U\d\{1,4}\)\>" contained
syntax match rtmdeckRemark ".*$" contained
highlight default link rtmdeckComment Comment
highlight default link rtmdeckRemark Comment
highlight default link rtmdeckName Identifier
highlight default link rtmdeckBare Keyword
highlight default link rtmdeckOperation Keyword
highlight default link rtmdeckKey Type
highlight default link rtmdeckCode Number
let b:current_syntax = "rtmdeck"
setlocal commentstring=*%s
