"""A keyboard of a person, for tests in which no terminal of the host is wanted."""
import io


class Person(io.BytesIO):
    """A keyboard of a person: lines, and what interrupts them."""

    def isatty(self):
        return True

    def read1(self, size=-1):
        line = super().readline()
        if line == b"INTERRUPT\n":
            raise KeyboardInterrupt
        return line


def as_person(begin):
    """How a keyboard begins that a person has."""
    def begun(self, file):
        begin(self, Person(file.read()))
    return begun
