" Types the characters of docs/EDITORS.md by a backslash and a short sequence, in insert mode.
scriptencoding utf-8
if &filetype ==# 'antt'
    setlocal commentstring=--\ %s comments=:--
endif
inoremap <buffer> \-> →
inoremap <buffer> \l λ
inoremap <buffer> \== ≡
inoremap <buffer> \/= ≢
inoremap <buffer> \:: ∷
inoremap <buffer> \* ×
inoremap <buffer> \u+ ⊎
inoremap <buffer> \_<Bar>_ ⊥
inoremap <buffer> \T ⊤
inoremap <buffer> \not ¬
inoremap <buffer> \<lt>-> ↔
inoremap <buffer> \<lt>= ≤
inoremap <buffer> \N ℕ
inoremap <buffer> \Z ℤ
inoremap <buffer> \. ∙
inoremap <buffer> \o ◌
inoremap <buffer> \<Bar>-> ↦
inoremap <buffer> \<lt>- ←
inoremap <buffer> \<Bar><Bar> ∥
inoremap <buffer> \_1 ₁
inoremap <buffer> \_2 ₂
inoremap <buffer> \[[ ⟦
inoremap <buffer> \]] ⟧
