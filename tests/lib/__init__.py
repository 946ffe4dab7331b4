"""What all tests stand on: a run of a program, results, calls that fail, the loopback, and the second reader."""
