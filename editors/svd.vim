" Vim syntax of svahost's drivers, *.svd (docs/DRIVERS.md, section 15).
" Put it into ~/.vim/syntax/, and this line into ~/.vim/filetype.vim:
"     autocmd BufNewFile,BufRead *.svd setfiletype svd
if exists('b:current_syntax')
  finish
endif
syntax case match
syntax iskeyword @,48-57,-,_

" a line is [NAME:] ACT, a setting, or what begins another line; a comment begins a word
syntax match svdComment /\%(^\|\s\)\@1<=#.*$/
syntax match svdName /^\s*\zs\l[[:alnum:]_-]*:\ze\s/
" by scripts/words --write: act
syntax match svdAct /\%(^\s*\|^\s*\l[[:alnum:]_-]*:\s\+\)\@<=\%(pte\|entry\|replace\|start\|stop\|barrier\|reset\|submit\|await\|free\|freeze\|serve\|respond\|discard\|close\|open\|skip\|resume\|ats\|pri\|mastering\|lock\|unlock\|mark\|set\|clear\|if\|deliver\|pump\|expire\|write\|forget\|end\|finish\|pass\|quit\|gone\|fault\|ask\|use\|evict\)\ze\%(\s\|$\)/
" by scripts/words --write: heading/d - 'else' - 'end' + body + setting
syntax match svdLine /^\s*\zs\%(config\|race\|thread\|workers\|device\|def\|call\|repeat\|platform\|link\|waits\|drain\|caches\|stopped\|order\|enables\|timeouts\|refuses\|allow\|places\|unit\)\ze\%(\s\|$\)/
" by scripts/words --write: act.if + condition
syntax match svdKind /\%(\<if\s\+\|\<if\s\+not\s\+\)\@20<=\%(not\|present\|stopped\|filed\|queued\|gone\|overflow\|failed\)\ze\s/
" the words of blocks: `end` with an endpoint behind it is an act
" by scripts/words --write: heading/d - 'config' - 'race' - 'thread' - 'workers' - 'device'
syntax match svdBlock /^\s*\zs\%(else\|end\)\ze\s*\%(#\|$\)/
" a parameter of a definition
syntax match svdName /\%(\s\)\@1<=\$\a[[:alnum:]_-]*\ze\%(\s\|$\)/
" by scripts/words --write: setting | setting.*
syntax match svdWord /\%(^\s*\%(platform\|link\|waits\|drain\|caches\|stopped\|order\|enables\|timeouts\|refuses\|allow\|places\|unit\)\s\+\)\@<=\%(free\|vt-d\|posted\|fence\|plain\|empty\|arrived\|off\|on\|marker\|status\|known\|queue\|loose\|kept\|cleared\|stop\|drain\|no-group\)\ze\%(\s\|$\)/
" by scripts/words --write: part/d
syntax match svdWord /\%(^\s*device\s.*\)\@<=\<\%(asks\|uses\|faults\|evicts\|pages\|silent\|lies\|awaits\|leaves\)\ze\%(\s\|$\)/
" by scripts/words --write: act.pte + act.fault + place.CODE
syntax match svdWord /\%(\s\)\@1<=\%(r\|w\|none\|rw\|new\|more\|last\|success\|invalid\|failure\)\ze\%(\s\|$\)/
" descriptors, what is awaited, and what is freed
" by scripts/words --write: descriptor + descriptor.wait
syntax match svdKind /\%(\<submit\s.*\)\@<=\<\%(range\|pasid\|iotlb\|entry\|wait\|drain\|fence\)\ze\%(\s\|$\)/
" by scripts/words --write: act.await
syntax match svdKind /\%(\<await\s\+\)\@20<=\%(wait\|stopped\|passed\|queue\|groups\|reset\|idle\|gone\)\ze\s/
" by scripts/words --write: act.free
syntax match svdKind /\%(\<free\s\+\)\@20<=\%(pasid\|space\|domain\)\ze\s/
" by scripts/words --write: kind/d
syntax match svdKind /\%(\<deliver\s\+\)\@20<=\%(start\|stop\|reset\|completion\|invalidate\|response\|request\|invalidated\|page-request\|marker\|status\|barrier\|passed\|reset-done\)\ze\s/
syntax match svdNumber /\%(\s\)\@1<=\%(0\|[1-9]\d*\|0x\x\{1,16}\)\ze\%(\s\|$\)/
syntax match svdPlus /\%(\s\)\@1<=+\ze\s/

highlight default link svdComment Comment
highlight default link svdName Identifier
highlight default link svdAct Statement
highlight default link svdLine PreProc
highlight default link svdBlock Conditional
highlight default link svdWord Constant
highlight default link svdKind Type
highlight default link svdNumber Number
highlight default link svdPlus Operator
let b:current_syntax = 'svd'
