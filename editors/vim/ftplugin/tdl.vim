" Keys of a file of performers' lines.
if exists('b:did_ftplugin')
  finish
endif
let b:did_ftplugin = 1
let s:cpoptions = &cpoptions
set cpoptions&vim

setlocal commentstring=--\ %s comments=:--
let b:undo_ftplugin = 'setlocal commentstring< comments<'

if exists('*listener_add')
  let b:tdl_listener = listener_add('tdl#changed')
  let b:undo_ftplugin ..= ' | call listener_remove(b:tdl_listener) | unlet b:tdl_listener'
endif

if !exists('g:no_plugin_maps') && !exists('g:no_tdl_maps')
  for [s:mode, s:key, s:plug] in [
        \ ['n', '<CR>', 'line'], ['x', '<CR>', 'lines'], ['x', '<C-e>', 'lines'],
        \ ['n', '<C-e>', 'paragraph'], ['i', '<C-e>', 'paragraph'], ['n', '<F9>', 'hush'], ['i', '<F9>', 'hush'],
        \ ]
    execute s:mode .. 'map <buffer> ' .. s:key .. ' <Plug>(tdl-' .. s:plug .. ')'
    let b:undo_ftplugin ..= ' | silent! execute "' .. s:mode .. 'unmap <buffer> ' .. s:key .. '"'
  endfor
  unlet s:mode s:key s:plug
endif

let &cpoptions = s:cpoptions
unlet s:cpoptions
