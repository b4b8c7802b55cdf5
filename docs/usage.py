"""`-h` and `--help` of the scripts in this folder: they print the script's docstring, and nothing else is done."""
import sys


def answer_help(text):
    if '-h' in sys.argv[1:] or '--help' in sys.argv[1:]:
        print(text)
        sys.exit(0)
