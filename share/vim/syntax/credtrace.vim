" Syntax of credtrace's scripts and reports. Both folders go into ~/.vim.
if exists('b:current_syntax')
  finish
endif

" No keyword of a name: a file may be called like an event.
syntax match credtraceComment /^ *#.*/
syntax match credtraceLine /^\d\+\ze / nextgroup=credtraceEvent,credtraceTask skipwhite
syntax match credtraceDeclares /^ *\zs\%(file\|ns\|init\|lane\)\ze /
syntax match credtraceEvent /\%(^ *\|^\d\+ \)\zs\%(init\|take\|takereal\|takefile\|drop\|ask\)\>/
syntax match credtraceEvent /\%(^ *\|^\d\+ \)\zs\%(prepare\|change\|commit\|abort\)\>/
syntax match credtraceEvent /\%(^ *\|^\d\+ \)\zs\%(override\|revert\|begin\|act\|sweep\)\>/
syntax match credtraceEvent /^\d\+ \zs\%(signal\|ptrace\|dumpable\|dumped\|open\|close\|spawn\|fork\|exit\)\>/
syntax match credtraceEvent /^\d\+ \zs\%(chown\|chmod\|setattr\|clearattr\|stat\|raw\)\>/
syntax match credtraceTask /\<t\d\+\>/ nextgroup=credtraceCall skipwhite
syntax match credtraceLabel /\<h\d\+\>/ nextgroup=credtraceCall skipwhite
syntax match credtraceOther /\<[pfnk]\d\+\>/

" What a task calls, and what is asked or changed.
syntax match credtraceCall contained /\<set\%(uid\|euid\|reuid\|resuid\)\>/
syntax match credtraceCall contained /\<set\%(gid\|egid\|regid\|resgid\)\>/
syntax match credtraceCall contained /\<\%(setgroups\|setfsuid\|setfsgid\|capset\|capdrop\)\>/
syntax match credtraceCall contained /\<\%(ambraise\|amblower\|ambclear\|securebits\|keepcaps\)\>/
syntax match credtraceCall contained /\<\%(nonewprivs\|exec\|access\|open\|close\|fcap\|signal\)\>/
syntax match credtraceCall contained /\<\%(ptrace\|dumpable\|dumped\|capsetraw\)\>/
syntax match credtraceCall contained /\<\%(chown\|chmod\|setattr\|clearattr\|stat\)\>/
" Behind `raw` stands a call.
syntax match credtraceCall contained /\<raw\>/ nextgroup=credtraceCall skipwhite
syntax match credtraceCall contained /\<\%(spawn\|fork\|exit\|ids\|caps\|groups\|bits\)\>/
syntax match credtraceCall contained /\<\%(capable\|bset\|ambis\|check\)\>/
syntax match credtraceCap /\<CAP_[A-Z_]\+\>/

" An entry's answer: a credential and a slot, or why it is refused.
syntax match credtraceArrow / -> / nextgroup=credtraceOk,credtraceRefused
syntax match credtraceOk contained /ok\>/
syntax match credtraceRefused contained /\%(ok\>\)\@!.*$/
syntax match credtraceSealed /\<[cs]\d\+\>/

highlight default link credtraceComment Comment
highlight default link credtraceLine LineNr
highlight default link credtraceDeclares PreProc
highlight default link credtraceEvent Statement
highlight default link credtraceCall Function
highlight default link credtraceTask Identifier
highlight default link credtraceLabel Identifier
highlight default link credtraceOther Identifier
highlight default link credtraceCap Constant
highlight default link credtraceArrow Delimiter
highlight default link credtraceOk Type
highlight default link credtraceRefused Error
highlight default link credtraceSealed Number

let b:current_syntax = 'credtrace'
