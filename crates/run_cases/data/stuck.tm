Q={a}
