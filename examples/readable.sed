# Three edits that make a text readable whose heading has no `*`, or which has fields that are not taken, or another sum after ETX:
# sed -f examples/readable.sed TEXT >READABLE (GNU sed). No fuse and no C changes; a text that needs none of them keeps its fuses too.

# A QF that is at the start of a line, and that the first `*` of the text ends, is part of the heading: a `*` before it ends the heading.
0,/\*/s/^QF/*&/

# A field that is not taken becomes a comment.
s/^[ABDEGKPRSTUV]/N&/

# 0000 after ETX: the transmission sum is not given.
s/\x03..../\x030000/
