" Colours of performers' lines, as docs/GUIDE.md has them.
if exists('b:current_syntax')
  finish
endif

syntax case match
syntax iskeyword @,48-57,_,'

syntax keyword tdlLine hush jumpMod look mute silence solo unmute unmuteAll unsolo unsoloAll
syntax match tdlLine /\<d\%(1[0-6]\|[1-9]\)\>/
syntax keyword tdlFunction brak cat const euclid euclidOff every every' fast fastcat id iter jux mask off palindrome
syntax keyword tdlFunction ply rev rotL rotR segment slow stack struct superimpose timecat whenmod within
syntax keyword tdlKey accelerate attack bandf begin channel crush cut cutoff delay end gain hold legato midichan
syntax keyword tdlKey n note pan release room s sound speed unit velocity vowel
" Nothing is chosen by chance: these are refused.
syntax keyword tdlChance almostAlways almostNever choose degrade degradeBy irand often rand randcat rarely scramble
syntax keyword tdlChance shuffle somecycles somecyclesBy sometimes sometimesBy unDegradeBy wchoose wrandcat

syntax match tdlOperator /|\?[-+*]|\?\|[#$.]\|<\~\|\~>/
syntax match tdlNumber /\<\d\+\%([.%]\d\+\)\?/
syntax match tdlComment /--.*$/ contains=@Spell

syntax region tdlText start=/"/ end=/"/ oneline contains=tdlStepNumber,tdlStepSign,tdlStepChance
syntax match tdlStepNumber /\<\d\+\%([.%]\d\+\)\?/ contained
syntax match tdlStepSign /[][<>{}()*\/!@_.,:%~]/ contained
syntax match tdlStepChance /[?|^]/ contained

highlight default link tdlLine Statement
highlight default link tdlFunction Function
highlight default link tdlKey Identifier
highlight default link tdlChance Error
highlight default link tdlOperator Operator
highlight default link tdlNumber Number
highlight default link tdlComment Comment
highlight default link tdlText String
highlight default link tdlStepNumber Number
highlight default link tdlStepSign Special
highlight default link tdlStepChance Error

let b:current_syntax = 'tdl'
