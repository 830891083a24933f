"""The program that is measured."""
import os
import sys

BUILT = os.path.join(os.path.dirname(os.path.dirname(os.path.abspath(__file__))), 'crates/orca/out/orca')


def program_of(words):
    """The one that the first of these words names, or else the one that is built. Where there is none, that is said."""
    path = os.path.abspath(words[0]) if words and not words[0].startswith('--') else BUILT
    if not os.access(path, os.X_OK):
        sys.exit(f"{path} isn't built")
    return path
