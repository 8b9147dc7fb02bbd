" Vim syntax file of Reggio, made by tools/syntax from crates/rg_base/specs/Words.antt
if exists("b:current_syntax")
  finish
endif

syn keyword reggioStructure class def main
syn keyword reggioCapability mut tmp paused imm iso
syn keyword reggioType int bool
syn keyword reggioManager arena count trace
syn keyword reggioConditional if else
syn keyword reggioRepeat while
syn keyword reggioStatement let print call swap enter as giving collect return
syn keyword reggioRight new in freeze merge read more size
syn keyword reggioOperator and or not is
syn keyword reggioConstant nil true false
syn keyword reggioSelf self
syn keyword reggioUnused cown when
syn match reggioNumber /\<\d\+\>/
syn match reggioBadNumber /\<\d\+[A-Za-z_]\w*/
syn match reggioSign /!=\|<=\|==\|>=\|%\|\*\|+\|-\|\/\|<\|=\|>/
syn match reggioComment +//.*$+ contains=@Spell

hi def link reggioStructure Structure
hi def link reggioCapability StorageClass
hi def link reggioType Type
hi def link reggioManager StorageClass
hi def link reggioConditional Conditional
hi def link reggioRepeat Repeat
hi def link reggioStatement Statement
hi def link reggioRight Keyword
hi def link reggioOperator Operator
hi def link reggioConstant Constant
hi def link reggioSelf Identifier
hi def link reggioUnused Error
hi def link reggioNumber Number
hi def link reggioBadNumber Error
hi def link reggioSign Operator
hi def link reggioComment Comment

setlocal commentstring=//%s
let b:current_syntax = "reggio"
