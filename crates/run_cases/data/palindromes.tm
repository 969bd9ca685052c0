// Accepts the palindromes over a and b: strips equal letters from both ends.
machine "palindromes"
kind acceptor
input "abba"
Σ = {a, b}
start = begin
F = {yes}

// look at the first letter and remember it
δ(begin, a) = (right_a, _, R)
δ(begin, b) = (right_b, _, R)
δ(begin, _) = (yes, _, N)   // nothing left

// walk to the end
δ(right_a, {a, b}) = (right_a, *, R)
δ(right_b, {a, b}) = (right_b, *, R)
δ(right_a, _) = (last_a, _, L)
δ(right_b, _) = (last_b, _, L)

// the last letter must be the same, or there is none left
δ(last_a, a) = (left, _, L)
δ(last_b, b) = (left, _, L)
δ(last_a, _) = (yes, _, N)
δ(last_b, _) = (yes, _, N)

// walk back
δ(left, {a, b}) = (left, *, L)
δ(left, _) = (begin, _, R)
