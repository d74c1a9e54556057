"""The reference model: the rules of the program, written in the simplest way from the definitions and docs/FORMAT.md and not
from the program, so that the two can be compared."""
