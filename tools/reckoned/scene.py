"""Scripts that are made line by line, each with what is printed of it."""
from scripted.answers import Script, whole


class Misreckoned(Exception):
    """What is reckoned of a script is not what it must be; chsim had no part in it."""


class Scene:
    """A script that is made line by line, and what is printed of it. A step is a line and what it prints; {} is the
    path of either."""

    def __init__(self, settings):
        self.lines, self.printed = list(settings), []

    def sets(self, lines):
        """Lines more, which print nothing."""
        self.lines += lines

    def says(self, line, told, path=0):
        """One line more, and what it prints."""
        self.lines.append(line.format(path))
        self.printed.append(f"{len(self.lines)} {told.format(path)}")

    def goes(self, steps, path=0):
        """These steps more, by a path."""
        for line, told in steps:
            self.says(line, told, path)

    def text(self):
        return "".join(f"{line}\n" for line in self.lines).encode("ascii")

    def script(self, name, word="run"):
        return Script(name, self.text(), {word: whole(*self.printed)})
