"""Words for people: what stands behind the program's line on a terminal.

`hints` begins with the program's line and finds what it is about; `places` shows where things stand in a text; `topologies`,
`policies`, `requests` and `refusals` say what is wrong there, `findings` what `lint` finds, and `changes` what `compare` tells. Nothing
here judges a text: where the place of a fault isn't found, nothing is said of it.
"""
