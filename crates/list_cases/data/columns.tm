// Columns are characters: δ has two bytes and ␣ three.
Q = {α, β,}
F = {ω}
	F = {ψ, ω}
δ(γ, '␣'	}
	?
␣→
