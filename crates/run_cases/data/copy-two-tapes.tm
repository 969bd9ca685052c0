// Copies the word on the first tape to the second, then rewinds both heads.
machine "copy"
tapes = 2
input "abba"
Σ = {a, b}
start = copy
F = {done}

// one line for each letter: the letter read on the first tape goes to the second
δ(copy, (a, _)) = (copy, (a, a), (R, R))
δ(copy, (b, _)) = (copy, (b, b), (R, R))
δ(copy, (_, _)) = (rewind, (_, _), (L, L))

δ(rewind, ({a, b}, {a, b})) = (rewind, (*, *), (L, L))   // four rules
δ(rewind, (_, _)) = (done, (_, _), (R, R))
// the copy stands on the second tape
