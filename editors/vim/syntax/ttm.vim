" Vim syntax file for scripts of ttm. Made by tools/gate/editors.py of editors/words.txt.
if exists("b:current_syntax")
  finish
endif

syntax match ttmError /\v^%( *#)@!.{-1,}\ze%( +#.*)?$/
syntax match ttmComment /\v%(^| )@1<=#.*$/
syntax match ttmLine0 /\v^%(ttm) %(1|2)%( +#.*)?$/ contains=ttmComment,ttmWord0_0
syntax match ttmWord0_0 /\v%(ttm)/ contained nextgroup=ttmWord0_1 skipwhite
highlight default link ttmWord0_0 ttmKeyword
syntax match ttmWord0_1 /\v%(1|2)/ contained
highlight default link ttmWord0_1 ttmKeyword
syntax match ttmLine1 /\v^%(vram) %(range|buddy) [0-9]+%( +#.*)?$/ contains=ttmComment,ttmWord1_0
syntax match ttmWord1_0 /\v%(vram)/ contained nextgroup=ttmWord1_1 skipwhite
highlight default link ttmWord1_0 ttmKeyword
syntax match ttmWord1_1 /\v%(range|buddy)/ contained nextgroup=ttmWord1_2 skipwhite
highlight default link ttmWord1_1 ttmKeyword
syntax match ttmWord1_2 /\v[0-9]+/ contained
highlight default link ttmWord1_2 ttmNumber
syntax match ttmLine2 /\v^%(tt) [0-9]+%( +#.*)?$/ contains=ttmComment,ttmWord2_0
syntax match ttmWord2_0 /\v%(tt)/ contained nextgroup=ttmWord2_1 skipwhite
highlight default link ttmWord2_0 ttmKeyword
syntax match ttmWord2_1 /\v[0-9]+/ contained
highlight default link ttmWord2_1 ttmNumber
syntax match ttmLine3 /\v^%(frames) [0-9]+%( +#.*)?$/ contains=ttmComment,ttmWord3_0
syntax match ttmWord3_0 /\v%(frames)/ contained nextgroup=ttmWord3_1 skipwhite
highlight default link ttmWord3_0 ttmKeyword
syntax match ttmWord3_1 /\v[0-9]+/ contained
highlight default link ttmWord3_1 ttmNumber
syntax match ttmLine4 /\v^%(swap) [0-9]+%( +#.*)?$/ contains=ttmComment,ttmWord4_0
syntax match ttmWord4_0 /\v%(swap)/ contained nextgroup=ttmWord4_1 skipwhite
highlight default link ttmWord4_0 ttmKeyword
syntax match ttmWord4_1 /\v[0-9]+/ contained
highlight default link ttmWord4_1 ttmNumber
syntax match ttmLine5 /\v^%(engines) [0-9]+%( +#.*)?$/ contains=ttmComment,ttmWord5_0
syntax match ttmWord5_0 /\v%(engines)/ contained nextgroup=ttmWord5_1 skipwhite
highlight default link ttmWord5_0 ttmKeyword
syntax match ttmWord5_1 /\v[0-9]+/ contained
highlight default link ttmWord5_1 ttmNumber
syntax match ttmLine6 /\v^%(buffer) [a-z][a-z0-9]{0,7} [0-9]+ %(prio) [0-9]+ %(group) %(-|[0-9]+) %(align) [0-9]+ %(want) %(sys|tt|vram)[a-z0-9\@+,-]* %(busy) %(sys|tt|vram)[a-z0-9\@+,-]*%( +#.*)?$/ contains=ttmComment,ttmWord6_0
syntax match ttmWord6_0 /\v%(buffer)/ contained nextgroup=ttmWord6_1 skipwhite
highlight default link ttmWord6_0 ttmKeyword
syntax match ttmWord6_1 /\v[a-z][a-z0-9]{0,7}/ contained nextgroup=ttmWord6_2 skipwhite
highlight default link ttmWord6_1 ttmName
syntax match ttmWord6_2 /\v[0-9]+/ contained nextgroup=ttmWord6_3 skipwhite
highlight default link ttmWord6_2 ttmNumber
syntax match ttmWord6_3 /\v%(prio)/ contained nextgroup=ttmWord6_4 skipwhite
highlight default link ttmWord6_3 ttmKeyword
syntax match ttmWord6_4 /\v[0-9]+/ contained nextgroup=ttmWord6_5 skipwhite
highlight default link ttmWord6_4 ttmNumber
syntax match ttmWord6_5 /\v%(group)/ contained nextgroup=ttmWord6_6 skipwhite
highlight default link ttmWord6_5 ttmKeyword
syntax match ttmWord6_6 /\v%(-|[0-9]+)/ contained nextgroup=ttmWord6_7 skipwhite
highlight default link ttmWord6_6 ttmNumber
syntax match ttmWord6_7 /\v%(align)/ contained nextgroup=ttmWord6_8 skipwhite
highlight default link ttmWord6_7 ttmKeyword
syntax match ttmWord6_8 /\v[0-9]+/ contained nextgroup=ttmWord6_9 skipwhite
highlight default link ttmWord6_8 ttmNumber
syntax match ttmWord6_9 /\v%(want)/ contained nextgroup=ttmWord6_10 skipwhite
highlight default link ttmWord6_9 ttmKeyword
syntax match ttmWord6_10 /\v%(sys|tt|vram)[a-z0-9\@+,-]*/ contained nextgroup=ttmWord6_11 skipwhite
highlight default link ttmWord6_10 ttmPlaces
syntax match ttmWord6_11 /\v%(busy)/ contained nextgroup=ttmWord6_12 skipwhite
highlight default link ttmWord6_11 ttmKeyword
syntax match ttmWord6_12 /\v%(sys|tt|vram)[a-z0-9\@+,-]*/ contained
highlight default link ttmWord6_12 ttmPlaces
syntax match ttmLine7 /\v^%(buffer) [a-z][a-z0-9]{0,7} [0-9]+ %(prio) [0-9]+ %(group) %(-|[0-9]+) %(align) [0-9]+ %(place) %(sys|tt|vram)[a-z0-9\@+,-]*%( +#.*)?$/ contains=ttmComment,ttmWord7_0
syntax match ttmWord7_0 /\v%(buffer)/ contained nextgroup=ttmWord7_1 skipwhite
highlight default link ttmWord7_0 ttmKeyword
syntax match ttmWord7_1 /\v[a-z][a-z0-9]{0,7}/ contained nextgroup=ttmWord7_2 skipwhite
highlight default link ttmWord7_1 ttmName
syntax match ttmWord7_2 /\v[0-9]+/ contained nextgroup=ttmWord7_3 skipwhite
highlight default link ttmWord7_2 ttmNumber
syntax match ttmWord7_3 /\v%(prio)/ contained nextgroup=ttmWord7_4 skipwhite
highlight default link ttmWord7_3 ttmKeyword
syntax match ttmWord7_4 /\v[0-9]+/ contained nextgroup=ttmWord7_5 skipwhite
highlight default link ttmWord7_4 ttmNumber
syntax match ttmWord7_5 /\v%(group)/ contained nextgroup=ttmWord7_6 skipwhite
highlight default link ttmWord7_5 ttmKeyword
syntax match ttmWord7_6 /\v%(-|[0-9]+)/ contained nextgroup=ttmWord7_7 skipwhite
highlight default link ttmWord7_6 ttmNumber
syntax match ttmWord7_7 /\v%(align)/ contained nextgroup=ttmWord7_8 skipwhite
highlight default link ttmWord7_7 ttmKeyword
syntax match ttmWord7_8 /\v[0-9]+/ contained nextgroup=ttmWord7_9 skipwhite
highlight default link ttmWord7_8 ttmNumber
syntax match ttmWord7_9 /\v%(place)/ contained nextgroup=ttmWord7_10 skipwhite
highlight default link ttmWord7_9 ttmKeyword
syntax match ttmWord7_10 /\v%(sys|tt|vram)[a-z0-9\@+,-]*/ contained
highlight default link ttmWord7_10 ttmPlaces
syntax match ttmLine8 /\v^%(thread)%( +#.*)?$/ contains=ttmComment,ttmWord8_0
syntax match ttmWord8_0 /\v%(thread)/ contained
highlight default link ttmWord8_0 ttmKeyword
syntax match ttmLine9 /\v^%(new) [a-z][a-z0-9]{0,7}%( +#.*)?$/ contains=ttmComment,ttmWord9_0
syntax match ttmWord9_0 /\v%(new)/ contained nextgroup=ttmWord9_1 skipwhite
highlight default link ttmWord9_0 ttmKeyword
syntax match ttmWord9_1 /\v[a-z][a-z0-9]{0,7}/ contained
highlight default link ttmWord9_1 ttmName
syntax match ttmLine10 /\v^%(free) [a-z][a-z0-9]{0,7}%( +#.*)?$/ contains=ttmComment,ttmWord10_0
syntax match ttmWord10_0 /\v%(free)/ contained nextgroup=ttmWord10_1 skipwhite
highlight default link ttmWord10_0 ttmKeyword
syntax match ttmWord10_1 /\v[a-z][a-z0-9]{0,7}/ contained
highlight default link ttmWord10_1 ttmName
syntax match ttmLine11 /\v^%(pin) [a-z][a-z0-9]{0,7}%( +#.*)?$/ contains=ttmComment,ttmWord11_0
syntax match ttmWord11_0 /\v%(pin)/ contained nextgroup=ttmWord11_1 skipwhite
highlight default link ttmWord11_0 ttmKeyword
syntax match ttmWord11_1 /\v[a-z][a-z0-9]{0,7}/ contained
highlight default link ttmWord11_1 ttmName
syntax match ttmLine12 /\v^%(unpin) [a-z][a-z0-9]{0,7}%( +#.*)?$/ contains=ttmComment,ttmWord12_0
syntax match ttmWord12_0 /\v%(unpin)/ contained nextgroup=ttmWord12_1 skipwhite
highlight default link ttmWord12_0 ttmKeyword
syntax match ttmWord12_1 /\v[a-z][a-z0-9]{0,7}/ contained
highlight default link ttmWord12_1 ttmName
syntax match ttmLine13 /\v^%(find) [a-z][a-z0-9]{0,7}%( +#.*)?$/ contains=ttmComment,ttmWord13_0
syntax match ttmWord13_0 /\v%(find)/ contained nextgroup=ttmWord13_1 skipwhite
highlight default link ttmWord13_0 ttmKeyword
syntax match ttmWord13_1 /\v[a-z][a-z0-9]{0,7}/ contained
highlight default link ttmWord13_1 ttmName
syntax match ttmLine14 /\v^%(swapout) [a-z][a-z0-9]{0,7}%( +#.*)?$/ contains=ttmComment,ttmWord14_0
syntax match ttmWord14_0 /\v%(swapout)/ contained nextgroup=ttmWord14_1 skipwhite
highlight default link ttmWord14_0 ttmKeyword
syntax match ttmWord14_1 /\v[a-z][a-z0-9]{0,7}/ contained
highlight default link ttmWord14_1 ttmName
syntax match ttmLine15 /\v^%(move) [a-z][a-z0-9]{0,7} %(sys|tt|vram)%( +#.*)?$/ contains=ttmComment,ttmWord15_0
syntax match ttmWord15_0 /\v%(move)/ contained nextgroup=ttmWord15_1 skipwhite
highlight default link ttmWord15_0 ttmKeyword
syntax match ttmWord15_1 /\v[a-z][a-z0-9]{0,7}/ contained nextgroup=ttmWord15_2 skipwhite
highlight default link ttmWord15_1 ttmName
syntax match ttmWord15_2 /\v%(sys|tt|vram)/ contained
highlight default link ttmWord15_2 ttmKeyword
syntax match ttmLine16 /\v^%(write) [a-z][a-z0-9]{0,7} [0-9]+ %([0-9a-f][0-9a-f])+%( +#.*)?$/ contains=ttmComment,ttmWord16_0
syntax match ttmWord16_0 /\v%(write)/ contained nextgroup=ttmWord16_1 skipwhite
highlight default link ttmWord16_0 ttmKeyword
syntax match ttmWord16_1 /\v[a-z][a-z0-9]{0,7}/ contained nextgroup=ttmWord16_2 skipwhite
highlight default link ttmWord16_1 ttmName
syntax match ttmWord16_2 /\v[0-9]+/ contained nextgroup=ttmWord16_3 skipwhite
highlight default link ttmWord16_2 ttmNumber
syntax match ttmWord16_3 /\v%([0-9a-f][0-9a-f])+/ contained
highlight default link ttmWord16_3 ttmBytes
syntax match ttmLine17 /\v^%(read) [a-z][a-z0-9]{0,7} [0-9]+ [0-9]+%( +#.*)?$/ contains=ttmComment,ttmWord17_0
syntax match ttmWord17_0 /\v%(read)/ contained nextgroup=ttmWord17_1 skipwhite
highlight default link ttmWord17_0 ttmKeyword
syntax match ttmWord17_1 /\v[a-z][a-z0-9]{0,7}/ contained nextgroup=ttmWord17_2 skipwhite
highlight default link ttmWord17_1 ttmName
syntax match ttmWord17_2 /\v[0-9]+/ contained nextgroup=ttmWord17_3 skipwhite
highlight default link ttmWord17_2 ttmNumber
syntax match ttmWord17_3 /\v[0-9]+/ contained
highlight default link ttmWord17_3 ttmNumber
syntax match ttmLine18 /\v^%(touch) [0-9]+%( +#.*)?$/ contains=ttmComment,ttmWord18_0
syntax match ttmWord18_0 /\v%(touch)/ contained nextgroup=ttmWord18_1 skipwhite
highlight default link ttmWord18_0 ttmKeyword
syntax match ttmWord18_1 /\v[0-9]+/ contained
highlight default link ttmWord18_1 ttmNumber
syntax match ttmLine19 /\v^%(map) [a-z][a-z0-9]{0,7}%( +#.*)?$/ contains=ttmComment,ttmWord19_0
syntax match ttmWord19_0 /\v%(map)/ contained nextgroup=ttmWord19_1 skipwhite
highlight default link ttmWord19_0 ttmKeyword
syntax match ttmWord19_1 /\v[a-z][a-z0-9]{0,7}/ contained
highlight default link ttmWord19_1 ttmName
syntax match ttmLine20 /\v^%(unmap) [a-z][a-z0-9]{0,7}%( +#.*)?$/ contains=ttmComment,ttmWord20_0
syntax match ttmWord20_0 /\v%(unmap)/ contained nextgroup=ttmWord20_1 skipwhite
highlight default link ttmWord20_0 ttmKeyword
syntax match ttmWord20_1 /\v[a-z][a-z0-9]{0,7}/ contained
highlight default link ttmWord20_1 ttmName
syntax match ttmLine21 /\v^%(peek) [a-z][a-z0-9]{0,7} [0-9]+ [0-9]+%( +#.*)?$/ contains=ttmComment,ttmWord21_0
syntax match ttmWord21_0 /\v%(peek)/ contained nextgroup=ttmWord21_1 skipwhite
highlight default link ttmWord21_0 ttmKeyword
syntax match ttmWord21_1 /\v[a-z][a-z0-9]{0,7}/ contained nextgroup=ttmWord21_2 skipwhite
highlight default link ttmWord21_1 ttmName
syntax match ttmWord21_2 /\v[0-9]+/ contained nextgroup=ttmWord21_3 skipwhite
highlight default link ttmWord21_2 ttmNumber
syntax match ttmWord21_3 /\v[0-9]+/ contained
highlight default link ttmWord21_3 ttmNumber
syntax match ttmLine22 /\v^%(poke) [a-z][a-z0-9]{0,7} [0-9]+ %([0-9a-f][0-9a-f])+%( +#.*)?$/ contains=ttmComment,ttmWord22_0
syntax match ttmWord22_0 /\v%(poke)/ contained nextgroup=ttmWord22_1 skipwhite
highlight default link ttmWord22_0 ttmKeyword
syntax match ttmWord22_1 /\v[a-z][a-z0-9]{0,7}/ contained nextgroup=ttmWord22_2 skipwhite
highlight default link ttmWord22_1 ttmName
syntax match ttmWord22_2 /\v[0-9]+/ contained nextgroup=ttmWord22_3 skipwhite
highlight default link ttmWord22_2 ttmNumber
syntax match ttmWord22_3 /\v%([0-9a-f][0-9a-f])+/ contained
highlight default link ttmWord22_3 ttmBytes
syntax match ttmLine23 /\v^%(vmap) [0-9]+ [0-9]+ [a-z][a-z0-9]{0,7} [0-9]+%( +#.*)?$/ contains=ttmComment,ttmWord23_0
syntax match ttmWord23_0 /\v%(vmap)/ contained nextgroup=ttmWord23_1 skipwhite
highlight default link ttmWord23_0 ttmKeyword
syntax match ttmWord23_1 /\v[0-9]+/ contained nextgroup=ttmWord23_2 skipwhite
highlight default link ttmWord23_1 ttmNumber
syntax match ttmWord23_2 /\v[0-9]+/ contained nextgroup=ttmWord23_3 skipwhite
highlight default link ttmWord23_2 ttmNumber
syntax match ttmWord23_3 /\v[a-z][a-z0-9]{0,7}/ contained nextgroup=ttmWord23_4 skipwhite
highlight default link ttmWord23_3 ttmName
syntax match ttmWord23_4 /\v[0-9]+/ contained
highlight default link ttmWord23_4 ttmNumber
syntax match ttmLine24 /\v^%(vunmap) [0-9]+ [0-9]+%( +#.*)?$/ contains=ttmComment,ttmWord24_0
syntax match ttmWord24_0 /\v%(vunmap)/ contained nextgroup=ttmWord24_1 skipwhite
highlight default link ttmWord24_0 ttmKeyword
syntax match ttmWord24_1 /\v[0-9]+/ contained nextgroup=ttmWord24_2 skipwhite
highlight default link ttmWord24_1 ttmNumber
syntax match ttmWord24_2 /\v[0-9]+/ contained
highlight default link ttmWord24_2 ttmNumber
syntax match ttmLine25 /\v^%(end)%( +#.*)?$/ contains=ttmComment,ttmWord25_0
syntax match ttmWord25_0 /\v%(end)/ contained
highlight default link ttmWord25_0 ttmKeyword
syntax match ttmSubmit /\v^submit [0-9]+ %(%(fill) [a-z][a-z0-9]{0,7} [0-9]+ [0-9]+ [0-9a-f][0-9a-f]|%(copy) [a-z][a-z0-9]{0,7} [0-9]+ [a-z][a-z0-9]{0,7} [0-9]+ [0-9]+|%(xor) [a-z][a-z0-9]{0,7} [0-9]+ [a-z][a-z0-9]{0,7} [0-9]+ [0-9]+|%(probe) [a-z][a-z0-9]{0,7} [0-9]+ [0-9]+)%( ; %(%(fill) [a-z][a-z0-9]{0,7} [0-9]+ [0-9]+ [0-9a-f][0-9a-f]|%(copy) [a-z][a-z0-9]{0,7} [0-9]+ [a-z][a-z0-9]{0,7} [0-9]+ [0-9]+|%(xor) [a-z][a-z0-9]{0,7} [0-9]+ [a-z][a-z0-9]{0,7} [0-9]+ [0-9]+|%(probe) [a-z][a-z0-9]{0,7} [0-9]+ [0-9]+))*%( +#.*)?$/ contains=ttmComment,ttmSubmitWord,ttmSubmitEnd
syntax match ttmSubmitWord /\v^submit/ contained nextgroup=ttmSubmitEngine skipwhite
syntax match ttmSubmitEngine /\v[0-9]+/ contained nextgroup=ttmSubmitJob0_0,ttmSubmitJob1_0,ttmSubmitJob2_0,ttmSubmitJob3_0 skipwhite
syntax match ttmSubmitEnd /;/ contained nextgroup=ttmSubmitJob0_0,ttmSubmitJob1_0,ttmSubmitJob2_0,ttmSubmitJob3_0 skipwhite
highlight default link ttmSubmitWord ttmKeyword
highlight default link ttmSubmitEngine ttmNumber
highlight default link ttmSubmitEnd ttmKeyword
syntax match ttmSubmitJob0_0 /\v%(fill)/ contained nextgroup=ttmSubmitJob0_1 skipwhite
highlight default link ttmSubmitJob0_0 ttmKeyword
syntax match ttmSubmitJob0_1 /\v[a-z][a-z0-9]{0,7}/ contained nextgroup=ttmSubmitJob0_2 skipwhite
highlight default link ttmSubmitJob0_1 ttmName
syntax match ttmSubmitJob0_2 /\v[0-9]+/ contained nextgroup=ttmSubmitJob0_3 skipwhite
highlight default link ttmSubmitJob0_2 ttmNumber
syntax match ttmSubmitJob0_3 /\v[0-9]+/ contained nextgroup=ttmSubmitJob0_4 skipwhite
highlight default link ttmSubmitJob0_3 ttmNumber
syntax match ttmSubmitJob0_4 /\v[0-9a-f][0-9a-f]/ contained nextgroup=ttmSubmitEnd skipwhite
highlight default link ttmSubmitJob0_4 ttmBytes
syntax match ttmSubmitJob1_0 /\v%(copy)/ contained nextgroup=ttmSubmitJob1_1 skipwhite
highlight default link ttmSubmitJob1_0 ttmKeyword
syntax match ttmSubmitJob1_1 /\v[a-z][a-z0-9]{0,7}/ contained nextgroup=ttmSubmitJob1_2 skipwhite
highlight default link ttmSubmitJob1_1 ttmName
syntax match ttmSubmitJob1_2 /\v[0-9]+/ contained nextgroup=ttmSubmitJob1_3 skipwhite
highlight default link ttmSubmitJob1_2 ttmNumber
syntax match ttmSubmitJob1_3 /\v[a-z][a-z0-9]{0,7}/ contained nextgroup=ttmSubmitJob1_4 skipwhite
highlight default link ttmSubmitJob1_3 ttmName
syntax match ttmSubmitJob1_4 /\v[0-9]+/ contained nextgroup=ttmSubmitJob1_5 skipwhite
highlight default link ttmSubmitJob1_4 ttmNumber
syntax match ttmSubmitJob1_5 /\v[0-9]+/ contained nextgroup=ttmSubmitEnd skipwhite
highlight default link ttmSubmitJob1_5 ttmNumber
syntax match ttmSubmitJob2_0 /\v%(xor)/ contained nextgroup=ttmSubmitJob2_1 skipwhite
highlight default link ttmSubmitJob2_0 ttmKeyword
syntax match ttmSubmitJob2_1 /\v[a-z][a-z0-9]{0,7}/ contained nextgroup=ttmSubmitJob2_2 skipwhite
highlight default link ttmSubmitJob2_1 ttmName
syntax match ttmSubmitJob2_2 /\v[0-9]+/ contained nextgroup=ttmSubmitJob2_3 skipwhite
highlight default link ttmSubmitJob2_2 ttmNumber
syntax match ttmSubmitJob2_3 /\v[a-z][a-z0-9]{0,7}/ contained nextgroup=ttmSubmitJob2_4 skipwhite
highlight default link ttmSubmitJob2_3 ttmName
syntax match ttmSubmitJob2_4 /\v[0-9]+/ contained nextgroup=ttmSubmitJob2_5 skipwhite
highlight default link ttmSubmitJob2_4 ttmNumber
syntax match ttmSubmitJob2_5 /\v[0-9]+/ contained nextgroup=ttmSubmitEnd skipwhite
highlight default link ttmSubmitJob2_5 ttmNumber
syntax match ttmSubmitJob3_0 /\v%(probe)/ contained nextgroup=ttmSubmitJob3_1 skipwhite
highlight default link ttmSubmitJob3_0 ttmKeyword
syntax match ttmSubmitJob3_1 /\v[a-z][a-z0-9]{0,7}/ contained nextgroup=ttmSubmitJob3_2 skipwhite
highlight default link ttmSubmitJob3_1 ttmName
syntax match ttmSubmitJob3_2 /\v[0-9]+/ contained nextgroup=ttmSubmitJob3_3 skipwhite
highlight default link ttmSubmitJob3_2 ttmNumber
syntax match ttmSubmitJob3_3 /\v[0-9]+/ contained nextgroup=ttmSubmitEnd skipwhite
highlight default link ttmSubmitJob3_3 ttmNumber
syntax match ttmVsubmit /\v^vsubmit [0-9]+ %(%(fill) [0-9]+ [0-9]+ [0-9a-f][0-9a-f]|%(copy) [0-9]+ [0-9]+ [0-9]+|%(xor) [0-9]+ [0-9]+ [0-9]+|%(probe) [0-9]+ [0-9]+)%( ; %(%(fill) [0-9]+ [0-9]+ [0-9a-f][0-9a-f]|%(copy) [0-9]+ [0-9]+ [0-9]+|%(xor) [0-9]+ [0-9]+ [0-9]+|%(probe) [0-9]+ [0-9]+))*%( +#.*)?$/ contains=ttmComment,ttmVsubmitWord,ttmVsubmitEnd
syntax match ttmVsubmitWord /\v^vsubmit/ contained nextgroup=ttmVsubmitEngine skipwhite
syntax match ttmVsubmitEngine /\v[0-9]+/ contained nextgroup=ttmVsubmitJob0_0,ttmVsubmitJob1_0,ttmVsubmitJob2_0,ttmVsubmitJob3_0 skipwhite
syntax match ttmVsubmitEnd /;/ contained nextgroup=ttmVsubmitJob0_0,ttmVsubmitJob1_0,ttmVsubmitJob2_0,ttmVsubmitJob3_0 skipwhite
highlight default link ttmVsubmitWord ttmKeyword
highlight default link ttmVsubmitEngine ttmNumber
highlight default link ttmVsubmitEnd ttmKeyword
syntax match ttmVsubmitJob0_0 /\v%(fill)/ contained nextgroup=ttmVsubmitJob0_1 skipwhite
highlight default link ttmVsubmitJob0_0 ttmKeyword
syntax match ttmVsubmitJob0_1 /\v[0-9]+/ contained nextgroup=ttmVsubmitJob0_2 skipwhite
highlight default link ttmVsubmitJob0_1 ttmNumber
syntax match ttmVsubmitJob0_2 /\v[0-9]+/ contained nextgroup=ttmVsubmitJob0_3 skipwhite
highlight default link ttmVsubmitJob0_2 ttmNumber
syntax match ttmVsubmitJob0_3 /\v[0-9a-f][0-9a-f]/ contained nextgroup=ttmVsubmitEnd skipwhite
highlight default link ttmVsubmitJob0_3 ttmBytes
syntax match ttmVsubmitJob1_0 /\v%(copy)/ contained nextgroup=ttmVsubmitJob1_1 skipwhite
highlight default link ttmVsubmitJob1_0 ttmKeyword
syntax match ttmVsubmitJob1_1 /\v[0-9]+/ contained nextgroup=ttmVsubmitJob1_2 skipwhite
highlight default link ttmVsubmitJob1_1 ttmNumber
syntax match ttmVsubmitJob1_2 /\v[0-9]+/ contained nextgroup=ttmVsubmitJob1_3 skipwhite
highlight default link ttmVsubmitJob1_2 ttmNumber
syntax match ttmVsubmitJob1_3 /\v[0-9]+/ contained nextgroup=ttmVsubmitEnd skipwhite
highlight default link ttmVsubmitJob1_3 ttmNumber
syntax match ttmVsubmitJob2_0 /\v%(xor)/ contained nextgroup=ttmVsubmitJob2_1 skipwhite
highlight default link ttmVsubmitJob2_0 ttmKeyword
syntax match ttmVsubmitJob2_1 /\v[0-9]+/ contained nextgroup=ttmVsubmitJob2_2 skipwhite
highlight default link ttmVsubmitJob2_1 ttmNumber
syntax match ttmVsubmitJob2_2 /\v[0-9]+/ contained nextgroup=ttmVsubmitJob2_3 skipwhite
highlight default link ttmVsubmitJob2_2 ttmNumber
syntax match ttmVsubmitJob2_3 /\v[0-9]+/ contained nextgroup=ttmVsubmitEnd skipwhite
highlight default link ttmVsubmitJob2_3 ttmNumber
syntax match ttmVsubmitJob3_0 /\v%(probe)/ contained nextgroup=ttmVsubmitJob3_1 skipwhite
highlight default link ttmVsubmitJob3_0 ttmKeyword
syntax match ttmVsubmitJob3_1 /\v[0-9]+/ contained nextgroup=ttmVsubmitJob3_2 skipwhite
highlight default link ttmVsubmitJob3_1 ttmNumber
syntax match ttmVsubmitJob3_2 /\v[0-9]+/ contained nextgroup=ttmVsubmitEnd skipwhite
highlight default link ttmVsubmitJob3_2 ttmNumber
syntax match ttmSchedule /\v^schedule%( %(t[0-9]+|e[0-9]+|r))+%( +#.*)?$/ contains=ttmComment,ttmScheduleWord,ttmActor
syntax match ttmScheduleWord /\v^schedule/ contained
syntax match ttmActor /\v %(t[0-9]+|e[0-9]+|r)/hs=s+1 contained
highlight default link ttmScheduleWord ttmKeyword
highlight default link ttmKeyword Keyword
highlight default link ttmNumber Number
highlight default link ttmName Identifier
highlight default link ttmPlaces Type
highlight default link ttmBytes Constant
highlight default link ttmActor Function
highlight default link ttmComment Comment
highlight default link ttmError Error

let b:current_syntax = "ttm"
