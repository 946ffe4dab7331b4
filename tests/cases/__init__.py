"""The tables and the scenarios. Each module has one part of the tests, a function of its own name."""
