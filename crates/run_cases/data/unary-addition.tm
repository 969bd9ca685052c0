// Unary addition: x^m # x^n becomes x^(m + n).
machine "add"
input "xx#xxx"
output unary x

δ(q0, x) = (q0, x, R)
δ(q0, #) = (q1, x, R)   // join the two blocks
δ(q1, x) = (q1, x, R)
δ(q1, ␣) = (q2, ␣, L)
δ(q2, x) = (q3, ␣, R)   // and drop one x at the end
