// The busy beaver with two states: four ones after six steps.
machine "BB(2)"
kind beaver
blank = 0
F = {H}

δ(A, 0) = (B, 1, R)
δ(A, 1) = (B, 1, L)
δ(B, 0) = (A, 1, L)
δ(B, 1) = (H, 1, R)
