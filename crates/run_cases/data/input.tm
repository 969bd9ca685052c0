input "a␣b␣"
Q={q}
F={q}
