// The busy beaver with four states: thirteen ones after 107 steps.
machine "BB(4)"
kind beaver
blank = 0
Q = {A, B, C, D, H}
Γ = {0, 1}
start = A
F = {H}

δ(A, 0) = (B, 1, R)
δ(A, 1) = (B, 1, L)
δ(B, 0) = (A, 1, L)
δ(B, 1) = (C, 0, L)
δ(C, 0) = (H, 1, R)
δ(C, 1) = (D, 1, L)
δ(D, 0) = (D, 1, R)
δ(D, 1) = (A, 0, R)
