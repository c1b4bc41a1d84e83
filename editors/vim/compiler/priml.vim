" :make asks `lens check` about this file. g:priml_lens names lens where it is not found by its name.
if exists("current_compiler")
  finish
endif
let current_compiler = "priml"

let s:lens = escape(shellescape(get(g:, "priml_lens", "lens")), ' \|"')
execute "CompilerSet makeprg=" . s:lens . "\\ check\\ %:S"
CompilerSet errorformat=%E%f:%l:%c:\ error:\ %m,%E%f:\ error:\ %m,%-C%*\\d\ \|%.%#,%-C%*\\s\|%.%#,%Z%m,%-G%.%#
