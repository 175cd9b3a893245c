" :compiler gams25, then :make runs gams25 on the file and lists its errors.
let current_compiler = "gams25"
CompilerSet makeprg=gams25-problems\ %:S
CompilerSet errorformat=%f:%l:%c:\ %m,%-G%.%#
