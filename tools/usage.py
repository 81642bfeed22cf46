"""What the scripts of this folder are called with."""
import sys


def words(doc, *wanted):
    """The words that were given, as many as are wanted; --help prints what the script does, and anything else is told, before any work."""
    given = sys.argv[1:]
    if given[:1] in (["--help"], ["-h"]):
        print(doc)
        sys.exit(0)
    if len(given) != len(wanted):
        sys.stderr.write("usage: python3 %s\n" % " ".join([sys.argv[0], *wanted]))
        sys.exit(2)
    return given
