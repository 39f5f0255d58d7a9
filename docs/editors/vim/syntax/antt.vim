" Colours a file of definitions or proofs: keywords, comments, types and constructors, the characters of docs/EDITORS.md.
if exists("b:current_syntax")
    finish
endif
scriptencoding utf-8
syntax keyword anttKeyword use pub mod module abbrev record data where let in case of by with unfolding unfoldable law
syntax match anttType "\<\u\k*\>"
syntax match anttSign "[→λ≡≢∷×⊎⊥⊤¬↔≤ℕℤ∙◌↦←∥⟦⟧]"
syntax match anttNumber "\<\d\+\>"
syntax region anttString start=+"+ skip=+\\\\\|\\"+ end=+"+ oneline
syntax match anttComment "--.*$" contains=@Spell
highlight default link anttKeyword Keyword
highlight default link anttType Type
highlight default link anttSign Operator
highlight default link anttNumber Number
highlight default link anttString String
highlight default link anttComment Comment
let b:current_syntax = "antt"
