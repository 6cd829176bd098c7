"""The oracle: what the gateway has to write, from the definitions and never from the program's output."""
