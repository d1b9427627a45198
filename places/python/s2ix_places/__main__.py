"""Words for the shell: python3 -m s2ix_places."""
import sys

from s2ix_places.words import main

if __name__ == "__main__":
    sys.exit(main(sys.argv[1:]))
