"""The library for other languages: what is built to try it, and its answers beside those of the program."""
