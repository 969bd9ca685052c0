input "12345"
Q={a}
