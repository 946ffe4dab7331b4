"""What needs other programs, and is no part of the gate."""
