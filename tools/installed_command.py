#!/usr/bin/env python3
"""Prints a command of Python as it is installed, whose modules are in another folder than beside it:

    tools/installed_command.py FILE MODULES [PYTHON]     PYTHON is the interpreter, if not the first one of the PATH
"""
import sys

HERE, FIRST = "os.path.dirname(os.path.realpath(__file__))", "#!/usr/bin/env python3\n"


def main():
    if len(sys.argv) not in (3, 4):
        sys.exit(__doc__)
    with open(sys.argv[1], encoding="utf-8") as file:
        text = file.read()
    if not text.startswith(FIRST) or text.count(HERE) != 1:
        sys.exit(f"{sys.argv[1]} doesn't name the folder of its modules, or its interpreter")
    text = text.replace(HERE, repr(sys.argv[2])).replace("import os\n", "")
    print(text.replace(FIRST, f"#!{sys.argv[3]}\n") if len(sys.argv) == 4 else text, end="")


main()
