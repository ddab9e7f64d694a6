" A performer's connection to `tdl serve` or tools/stage. A line goes there as it would be saved, byte for byte, and its
" reply is shown behind it. Where it is refused, the line below has a mark at the slip and what docs/GUIDE.md says of it.

let s:top = fnamemodify(resolve(expand('<sfile>:p')), ':h:h:h:h')
let s:has_properties = has('textprop')
let s:has_virtual_text = s:has_properties && has('patch-9.0.0121') && get(g:, 'tdl_virtual_text', 1)
let s:host = '127.0.0.1'
let s:port = 0
let s:channel = v:null
let s:sentences = {}  " what docs/GUIDE.md says of each kind of refusal
let s:asked = []  " the lines that have no reply yet, in order
let s:said = ''  " what the port said last by itself, as that it is taken
let s:is_refused = 0  " whether one of what was sent last is refused: then that stays in view

highlight default link TdlReply Comment
highlight default link TdlRefused WarningMsg
highlight default link TdlSlip Error

if s:has_properties
  for [s:type, s:group] in [['tdl_reply', 'TdlReply'], ['tdl_refused', 'TdlRefused'], ['tdl_slip', 'TdlSlip']]
    call prop_type_add(s:type, {'highlight': s:group, 'priority': 10})
  endfor
endif

" Connects to `PORT` or `HOST:PORT`, and without a word to where it was before.
function! tdl#connect(where = '') abort
  call tdl#leave()
  if a:where =~# ':'
    let s:host = substitute(a:where, ':[^:]*$', '', '')
  elseif a:where != ''
    let s:host = '127.0.0.1'
  endif
  if a:where != ''
    let s:port = str2nr(matchstr(a:where, '\d\+$'))
  endif
  if !has('channel')
    call s:tell('tdl: this Vim has no channels; Debian has one with them in its package vim', 'WarningMsg')
    return
  endif
  call s:read_sentences()
  if s:open()
    call s:tell('tdl: a performer at ' .. s:place(), 'None')
  endif
endfunction

" Ends the connection.
function! tdl#leave() abort
  if s:is_open()
    call ch_close(s:channel)
  endif
  call s:forget()
endfunction

" Sends lines of this buffer.
function! tdl#send(first, last) abort
  if !s:is_open() && !s:open()
    return
  endif
  call tdl#clear(a:first, a:last)
  let s:is_refused = 0
  for number in range(a:first, a:last)
    let text = getline(number)
    call s:ask({'buffer': bufnr(), 'number': number, 'text': text, 'bytes': s:as_saved(text)})
  endfor
endfunction

" Sends the lines round the cursor, up to those that are blank.
function! tdl#paragraph() abort
  if getline('.') =~# '^\s*$'
    call s:tell('tdl: no line here', 'WarningMsg')
    return
  endif
  let next = search('^\s*$', 'nW')
  call tdl#send(search('^\s*$', 'bnW') + 1, next ? next - 1 : line('$'))
endfunction

" Sends a line that stands in no buffer.
function! tdl#say(text) abort
  if s:is_open() || s:open()
    let s:is_refused = 0
    call s:ask({'buffer': 0, 'number': 0, 'text': a:text, 'bytes': a:text})
  endif
endfunction

" Takes what is shown of these lines away.
function! tdl#clear(first, last, buffer = bufnr()) abort
  if !s:has_properties
    return
  endif
  for type in ['tdl_reply', 'tdl_refused', 'tdl_slip']
    call prop_remove({'bufnr': a:buffer, 'type': type, 'all': 1}, a:first, a:last)
  endfor
endfunction

" A line that is changed has no reply any more.
function! tdl#changed(buffer, start, end, added, changes) abort
  for change in a:changes
    let last = min([change.end - 1 + change.added, getbufinfo(a:buffer)[0].linecount])
    if change.lnum <= last
      call tdl#clear(change.lnum, last, a:buffer)
    endif
  endfor
endfunction

function! s:is_open() abort
  return s:channel isnot v:null && ch_status(s:channel) ==# 'open'
endfunction

" Whether a channel is that of the connection, and no older one.
function! s:is_own(channel) abort
  return s:channel isnot v:null && ch_info(s:channel).id == ch_info(a:channel).id
endfunction

function! s:place() abort
  return 'port ' .. s:port .. ' of ' .. s:host
endfunction

" Connects to where it was before. Whether that was done.
function! s:open() abort
  if s:port == 0
    call s:tell('tdl: no port is known yet: type :TdlConnect PORT', 'WarningMsg')
    return 0
  endif
  if !empty(s:asked)
    call s:lose(s:channel)
  endif
  call s:forget()
  let options = {'mode': 'nl', 'callback': function('s:hear'), 'close_cb': function('s:lose'), 'waittime': 2000}
  try
    let s:channel = ch_open(s:host .. ':' .. s:port, options)
  catch
    let s:channel = v:null
  endtry
  if !s:is_open()
    call s:tell('tdl: nobody takes performers at ' .. s:place() .. ': nothing is sent', 'WarningMsg')
  endif
  return s:is_open()
endfunction

function! s:forget() abort
  let s:channel = v:null
  let s:asked = []
  let s:said = ''
endfunction

" A line as it would be saved: where that is another encoding than Vim's own, in that one.
function! s:as_saved(text) abort
  return s:is_saved_otherwise() ? iconv(a:text, &encoding, &fileencoding) : a:text
endfunction

function! s:is_saved_otherwise() abort
  return &fileencoding != '' && &fileencoding !=# &encoding && &fileencoding !~# '16\|32\|ucs'
endfunction

function! s:ask(line) abort
  call add(s:asked, a:line)
  try
    call ch_sendraw(s:channel, s:with_end(a:line.bytes))
  catch
    " The channel's end is told by s:lose.
  endtry
endfunction

" The bytes of a line with its end. A byte 0 stands as a line feed in Vim's texts.
function! s:with_end(bytes) abort
  if a:bytes !~# "\n"
    return a:bytes .. "\n"
  endif
  let blob = 0z
  for at in range(len(a:bytes))
    call add(blob, a:bytes[at] ==# "\n" ? 0 : char2nr(a:bytes[at]))
  endfor
  return add(blob, 10)
endfunction

" Takes a reply. What comes without a line was said by the port itself.
function! s:hear(channel, reply) abort
  if !s:is_own(a:channel)
    return
  endif
  if empty(s:asked)
    let s:said = a:reply
    call s:tell(a:reply, 'WarningMsg')
    return
  endif
  let line = remove(s:asked, 0)
  let kind = a:reply ==# 'no memory' ? a:reply : matchstr(a:reply, '^refused \zs\w\+')
  let sentence = kind == '' ? '' : kind .. ': ' .. get(s:sentences, kind, 'see docs/GUIDE.md, "Refusals".')
  let at = s:slip(kind, a:reply, line)
  call s:show(line, a:reply, kind, at, sentence)
  if kind != ''
    let s:is_refused = 1
    call s:tell(join([a:reply, s:rest_at(line, at), sentence]), 'WarningMsg')
  elseif !s:is_refused
    call s:tell(line.number ? a:reply : line.text .. ': ' .. a:reply, 'None')
  endif
endfunction

" The byte of the line at which it was refused, or -1 where the reply has other numbers.
function! s:slip(kind, reply, line) abort
  let at = matchstr(a:reply, '^refused \w\+ \zs\d\+$')
  if at == '' || a:kind ==# 'Full' || at > len(a:line.bytes)
    return -1
  endif
  return s:is_saved_otherwise() ? len(iconv(strpart(a:line.bytes, 0, at), &fileencoding, &encoding)) : str2nr(at)
endfunction

" What stands at the slip, for the line at the bottom.
function! s:rest_at(line, at) abort
  if a:at < 0
    return ''
  endif
  let rest = strcharpart(strpart(a:line.text, a:at), 0, 12)
  return rest == '' ? '(at the end)' : '(at `' .. rest .. '`)'
endfunction

" Shows a reply behind its line, where that still stands as it was, and the slip of one that is refused.
function! s:show(line, reply, kind, at, sentence) abort
  if !s:has_properties || !bufloaded(a:line.buffer) || getbufline(a:line.buffer, a:line.number) != [a:line.text]
    return
  endif
  call tdl#clear(a:line.number, a:line.number, a:line.buffer)
  if a:at >= 0 && a:at < len(a:line.text)
    let length = len(matchstr(strpart(a:line.text, a:at), '^.'))
    call prop_add(a:line.number, a:at + 1, {'bufnr': a:line.buffer, 'type': 'tdl_slip', 'length': max([1, length])})
  endif
  if !s:has_virtual_text
    return
  endif
  let behind = {'bufnr': a:line.buffer, 'type': a:kind == '' ? 'tdl_reply' : 'tdl_refused', 'text': '  ' .. a:reply}
  call prop_add(a:line.number, 0, extend(behind, {'text_align': 'after'}))
  if a:kind != ''
    let below = {'text': s:mark(a:line.text, a:at) .. a:sentence, 'text_align': 'below', 'text_wrap': 'wrap'}
    call prop_add(a:line.number, 0, extend(behind, below))
  endif
endfunction

" What stands before the sentence: blanks up to the slip and a mark, where there is one and it is in view.
function! s:mark(text, at) abort
  let column = strdisplaywidth(strpart(a:text, 0, max([0, a:at])))
  return a:at < 0 || !&wrap && column > winwidth(0) - 20 ? '' : repeat(' ', column) .. '^ '
endfunction

" Tells that the connection has ended, and of each line that has no reply.
function! s:lose(channel) abort
  if !s:is_own(a:channel)
    return
  endif
  let [asked, said] = [s:asked, s:said]
  call s:forget()
  for line in asked
    call s:show(line, 'no reply: it may count or not', '', -1, '')
  endfor
  if said != ''
    call s:tell(said, 'WarningMsg')
    return
  endif
  let lines = empty(asked) ? '' : '; lines without a reply: ' .. len(asked)
  call s:tell('tdl: the connection to ' .. s:place() .. ' is lost' .. lines .. '. The next line makes it anew', 'WarningMsg')
endfunction

" Asks once what docs/GUIDE.md says of each kind of refusal. `system()` would let what is typed meanwhile onto the screen.
function! s:read_sentences() abort
  let program = get(g:, 'tdl_explain', s:top .. '/tools/explain')
  if !empty(s:sentences) || !executable(program)
    return
  endif
  let channel = job_getchannel(job_start([program, 'kinds'], {'in_io': 'null', 'err_io': 'null'}))
  let row = ch_read(channel, {'timeout': 5000})
  while row != ''
    let [kind; rest] = split(row, "\t")
    let s:sentences[kind] = join(rest)
    let row = ch_read(channel, {'timeout': 5000})
  endwhile
endfunction

" Shows a text at the bottom, as much of it as there is room for.
function! s:tell(text, group) abort
  let shown = strcharpart(a:text, 0, max([20, get(v:, 'echospace', &columns - 12)]))
  redraw
  execute 'echohl' a:group
  if a:group ==# 'None'
    echo shown
  else
    echomsg shown
  endif
  echohl None
endfunction
