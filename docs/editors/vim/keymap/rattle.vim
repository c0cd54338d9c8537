" The symbols of contracts, definitions and proofs; docs/editors.md has the table
let b:keymap_name = "symbols"
loadkeymap
<Bslash>to →
<Bslash>from ←
<Bslash>map ↦
<Bslash>iff ↔
<Bslash>lam λ
<Bslash>Lam Λ
<Bslash>== ≡
<Bslash>==n ≢
<Bslash>le ≤
<Bslash>x ×
<Bslash>u+ ⊎
<Bslash>:: ∷
<Bslash>. ∙
<Bslash>o ◌
<Bslash><Bar>> ▸
<Bslash>not ¬
<Bslash>bot ⊥
<Bslash>top ⊤
<Bslash>N ℕ
<Bslash>Z ℤ
<Bslash><Bar><Bar> ∥
<Bslash>0 ₀
<Bslash>1 ₁
<Bslash>2 ₂
<Bslash>3 ₃
<Bslash><lt> «
<Bslash>> »
