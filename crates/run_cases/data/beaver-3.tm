// The three-state champion for ones: six ones after fourteen steps.
machine "BB(3)"
kind beaver
blank = 0
F = {H}

δ(A, 0) = (B, 1, R)
δ(A, 1) = (H, 1, R)
δ(B, 0) = (C, 0, R)   // the only step that writes a zero
δ(B, 1) = (B, 1, R)
δ(C, 0) = (C, 1, L)
δ(C, 1) = (A, 1, L)
