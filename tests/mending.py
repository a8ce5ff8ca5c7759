"""Cases of mending, each under a label: an image with its good side, the image after the call, and the list of changes. Of the
image after it the program `cases` prints a digest, of the list every word."""
from asked import MEND, case, digest, label, line
from images import ALL_ONES, SECTOR, STREAMED, entries, image, kdmv, zeroed

# The good side, as it is named; what each word of the list holds before the call, and the most words that the program lends.
PRIMARY, REDUNDANT = 0, 1
HELD, MOST = 170, 96


class Mends:
    """The cases of one script, what the program must print for them, and their labels."""

    def __init__(self):
        self.cases, self.lines, self.labels = [], [], []

    def asked(self, name, data, good, room, answer, after, words=()):
        """A list of so many words; the image after the call, and the words that the list then starts with."""
        assert len(words) <= room <= MOST and len(after) == len(data) <= 128 * SECTOR, name
        label(self.labels, name)
        self.cases.append(case(MEND, data, lengths=(good, room), room=len(data)))
        self.lines.append(line("mend", *answer, digest(after), *words, *[HELD] * (room - len(words))))

    def mended(self, name, data, good, after, *changes, room=None):
        """An image that is answered, and its changes: grain, old entry, new entry."""
        words = [word for change in changes for word in change]
        self.asked(name, data, good, len(words) if room is None else room, (0, 0, len(changes)), after, words)

    def refused(self, name, data, number, good, room=MOST, place=0):
        self.asked(name, data, good, room, (number, place, 0), data)

    def refused_40(self, name, data):
        """From either side."""
        self.refused(f"{name}-from-primary", data, 40, PRIMARY)
        self.refused(f"{name}-from-redundant", data, 40, REDUNDANT)


def sides(primary, redundant, sectors=11, head=None, **fields):
    """A directory at 1 with its table at 2, and a redundant one at 6 with its table at 7: entries of either table. Unless a
    header is given, an entry of 1 means zeros, and there are two grains."""
    return image(sectors, (0, head or zeroed(redundant=6, **fields)), (1, entries(2)), (2, entries(*primary)), (6, entries(7)),
                 (7, entries(*redundant)))


def footed(primary, redundant, tables=(2, 7), copy=6, **fields):
    """A stream of 13 sectors with two directories, that at 1 told by its footer."""
    head = {"redundant": copy, **STREAMED, **fields}
    return image(13, (0, kdmv(directory=ALL_ONES, **head)), (1, entries(tables[0])), (6, entries(tables[1])),
                 (tables[0], entries(*primary)), (tables[1], entries(*redundant)), (11, kdmv(directory=1, **head)))
