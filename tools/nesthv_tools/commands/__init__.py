"""The commands, a module each. What a module says of itself is its help text, `main` makes it, and `FAILED`
is its status where a file or stream fails, 2 if left out.
"""
