"""Lists the words of a text that a project doesn't know, each with its line: spelling.py FOLDER NET < TEXT."""
import re
import sys

from morph import Project

with Project(sys.argv[1]) as project:
    for number, line in enumerate(sys.stdin, 1):
        for word in re.findall(r"[\w'’-]+", line):
            if not project.knows(sys.argv[2], word):
                print(f"{number}: {word}")
