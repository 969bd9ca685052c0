Σ = {a}
Sigma = {b}