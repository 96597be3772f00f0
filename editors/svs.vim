" Vim syntax of svahost's scripts, *.svs, scenarios, *.sva, and races, *.svr (docs/FORMAT.md, sections 3, 12 and 13).
" Put it into ~/.vim/syntax/, and this line into ~/.vim/filetype.vim:
"     autocmd BufNewFile,BufRead *.svs,*.sva,*.svr setfiletype svs
if exists('b:current_syntax')
  finish
endif
syntax case match
syntax iskeyword @,48-57,-,_

" a line is [NAME:] STEP [=> ANSWER]; a comment begins a word
syntax match svsComment /\%(^\|\s\)\@1<=#.*$/
syntax match svsName /^\s*\zs\l[[:alnum:]_-]*:\ze\s/
" by scripts/words --write: 'try' + claim.ends + joint | 'config' + step
syntax match svsStep /\%(^\s*\|^\s*\l[[:alnum:]_-]*:\s\+\|\<\%(try\|never\|always\|sometimes\|or\|and\|not\)\s\+\)\@<=\%(config\|space\|drop\|map\|unmap\|unmapr\|bind\|unbind\|advance\|pump\|serve\|reset\|take\|answer\|ask\|use\|end\|evict\|fault\|finish\|quit\|deliver\|look\|bearer\)\ze\%(\s\|$\)/
" what begins the other lines of a race, and the words of its conditions and devices
" by scripts/words --write: heading/r - 'config' - 'try' + claim + claim.ends
syntax match svsRace /^\s*\zs\%(race\|thread\|workers\|device\|ends\|never\|always\|sometimes\)\ze\%(\s\|$\)/
" by scripts/words --write: claim.ends
syntax match svsRace /\%(^\s*ends\s\+\)\@<=\%(never\|always\|sometimes\)\ze\s/
syntax match svsRace /\%(^\s*\|^\s*\l[[:alnum:]_-]*:\s\+\)\@<=try\ze\s/
" by scripts/words --write: claim.ends | atom + joint
syntax match svsRace /\%(^\s*\%(ends\s\+\)\?\%(never\|always\|sometimes\)\s.*\)\@<=\<\%(is\|done\|times\|usable\|or\|and\|not\)\ze\s/
syntax match svsRace /\%(\<usable\s\+\S\+\s\+\)\@<=at\ze\%(\s\|$\)/
" by scripts/words --write: part/r
syntax match svsRace /\%(^\s*device\s.*\)\@<=\<\%(asks\|uses\|faults\|evicts\|pages\|silent\)\ze\%(\s\|$\)/
" by scripts/words --write: place.A + place.G + place.L + place.V + delivery.*
syntax match svsWord /\%(\s\)\@1<=\%(r\|w\|rw\|new\|more\|last\|success\|invalid\|failure\|next\)\ze\%(\s\|$\)/
" by scripts/words --write: kind/s
syntax match svsKind /\%(\<deliver\s\+\)\@20<=\%(start\|stop\|reset\|completion\|invalidate\|response\|request\|invalidated\|page-request\|marker\|reset-done\)\ze\s/
syntax match svsNumber /\%(\s\)\@1<=\%(0x\x\{1,16}\|0\|[1-9]\d*\)\ze\%(\s\|$\)/
syntax match svsVector /\%(\s\)\@1<=\%({[^ }]*}\|[0-9a-f]\{8}\)\ze\%(\s\|$\)/

" what is expected: a refusal stands out
syntax region svsAnswer matchgroup=svsArrow start=/\%(\s\)\@1<==>\ze\s/ end=/\ze\s\%(#\|and\s\|or\s\)\|$/ oneline contains=svsRefused,svsAny
syntax match svsRefused /\<refused\>\%(\s\+\S\+\)\{0,2}/ contained
syntax match svsAny /\s\@1<=_\S\@!/ contained

highlight default link svsComment Comment
highlight default link svsName Identifier
highlight default link svsStep Statement
highlight default link svsRace PreProc
highlight default link svsWord Constant
highlight default link svsKind Type
highlight default link svsNumber Number
highlight default link svsVector Number
highlight default link svsArrow Operator
highlight default link svsAnswer String
highlight default link svsRefused WarningMsg
highlight default link svsAny Special
let b:current_syntax = 'svs'
