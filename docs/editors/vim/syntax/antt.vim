if exists("b:current_syntax")
    finish
endif
syntax keyword anttKeyword data record deriving module where use mod pub open as unfoldable abbrev axiom unfolding ruleset mutual
syntax keyword anttKeyword infix infixl infixr elim let in do if then else
syntax keyword anttTactic rw simp search grw cc omega grind hlevel assumption first_of
syntax match anttSymbol "[→λΛ×≡≢∷∙↦⊎↔≤⊥⊤¬▸◌]"
syntax match anttType "\<[A-Z]\k*\>\|[ℕℤ]"
syntax match anttHole "?\k*"
syntax region anttString start=+"+ skip=+\\.+ end=+"+ oneline
syntax match anttComment "\(^\|\s\)\zs--.*$" contains=@Spell
syntax region anttComment start="{-" end="-}" contains=@Spell
highlight default link anttKeyword Keyword
highlight default link anttTactic Function
highlight default link anttSymbol Operator
highlight default link anttType Type
highlight default link anttHole Todo
highlight default link anttString String
highlight default link anttComment Comment
let b:current_syntax = "antt"
