F = {g, f}
δ(f,x)=(g,y,N)
δ(γ,x)=(γ,x,L)
