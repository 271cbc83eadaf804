" Traces of rtmrun. docs/TRACE.md has the lines.
if exists("b:current_syntax")
  finish
endif
syntax case match
syntax match rtmtraceEdge "^\%(RTMTRACE \d\+\|END \%(ENDED\|STALLED\|LIMIT\)\)$"
syntax match rtmtraceIndex "^\d\+" nextgroup=rtmtraceUnit skipwhite
syntax match rtmtraceUnit "\S\+" contained nextgroup=rtmtraceError,rtmtraceVerb skipwhite
syntax match rtmtraceError "\<\%(ERROR\|LAND\)\>" contained
syntax match rtmtraceVerb "\<\%(EXEC\|ENTER\|LEAVE\|ARRIVE\|BEGIN\|RELEASE\|DONE\|PURGE\|MEMEND\)\>" contained
syntax match rtmtraceVerdict "\<\%(PERC\|RETRY\|STOP\|FAIL\|BAD\|OVER\|CLUP\|STAF\|NOSDWA\|LOGREC\|DUMP\)\>"
syntax match rtmtraceKey "\<[A-Z0-9]\+\ze="
syntax match rtmtraceCode "\<\%(S\x\{3}\|U\d\{4}\)\>"
highlight default link rtmtraceEdge PreProc
highlight default link rtmtraceIndex Number
highlight default link rtmtraceUnit Identifier
highlight default link rtmtraceError Error
highlight default link rtmtraceVerb Keyword
highlight default link rtmtraceVerdict Special
highlight default link rtmtraceKey Type
highlight default link rtmtraceCode Constant
let b:current_syntax = "rtmtrace"
