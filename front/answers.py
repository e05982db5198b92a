"""An answer: the lines of the proved program, and what goes to standard output, which is these lines but of a word that writes a file or a page."""


class Answer:
    def __init__(self, lines, output=None):
        self.lines, self.output = lines, output

    @property
    def refused(self):
        """Number and place of the refusal, None where there is none. A refused word has that one line."""
        words = self.lines[0].split() if self.lines else []
        return (int(words[1]), int(words[3])) if words[:1] == ["REFUSED"] else None

    @property
    def status(self):
        if self.refused:
            return 2
        return 1 if any(line.startswith(("MISS", "DIFFERS")) for line in self.lines) else 0
