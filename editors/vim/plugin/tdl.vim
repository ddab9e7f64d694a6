" A performer of `tdl serve` in Vim: commands, and what keys can be mapped to. editors/README.md says how to use it.
if exists('g:loaded_tdl') || v:version < 802
  finish
endif
let g:loaded_tdl = 1
let s:cpoptions = &cpoptions
set cpoptions&vim

command! -nargs=? TdlConnect call tdl#connect(<q-args>)
command! -bar TdlLeave call tdl#leave()
command! -bar -range TdlSend call tdl#send(<line1>, <line2>)
command! -bar TdlParagraph call tdl#paragraph()
command! -bar TdlHush call tdl#say('hush')
command! -bar TdlClear call tdl#clear(1, line('$'))
command! -nargs=1 Tdl call tdl#say(<q-args>)

nnoremap <Plug>(tdl-line) <Cmd>call tdl#send(line('.'), line('.'))<CR>
xnoremap <Plug>(tdl-lines) :TdlSend<CR>
nnoremap <Plug>(tdl-paragraph) <Cmd>call tdl#paragraph()<CR>
inoremap <Plug>(tdl-paragraph) <Cmd>call tdl#paragraph()<CR>
nnoremap <Plug>(tdl-hush) <Cmd>call tdl#say('hush')<CR>
inoremap <Plug>(tdl-hush) <Cmd>call tdl#say('hush')<CR>

let &cpoptions = s:cpoptions
unlet s:cpoptions
