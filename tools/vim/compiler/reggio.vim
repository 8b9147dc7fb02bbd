" Vim compiler file of Reggio: after `:compiler reggio`, `:make` checks the file, and goes to the line of its first fault.
if exists("current_compiler")
  finish
endif
let current_compiler = "reggio"

CompilerSet makeprg=reggio\ check\ %:S
CompilerSet errorformat=%m\ at\ line\ %l
