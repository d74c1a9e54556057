"""Where things are. It is imported before the tests' other modules, since it tells Python their folders: `lib` has what only tests use,
`tests` itself the checkers and the reference model."""
import pathlib
import sys

TESTS = pathlib.Path(__file__).resolve().parent.parent
TOP = TESTS.parent
sys.path[1:1] = [str(TESTS / 'lib'), str(TESTS)]
