"""What a report notes: what was left out, or taken for so."""

import collections

MOST = 100  # notes of single lines


class Notes(collections.Counter):
    """Notes, each with how often it holds. One that begins with `line` or `no` holds once."""

    def of_line(self, line, text):
        """A note of a line."""
        words = "line %d: %s" % (line, text)
        if words in self or sum(1 for each in self if each.startswith("line ")) < MOST:
            self[words] = 1
        else:
            self["notes of further lines"] += 1

    def wrong_did(self, line, pasid, has, wanted):
        """An invalidation in the submission of this line does nothing for the PASID."""
        self.of_line(line, "an invalidation of PASID %d has DID %d, its entry has %d: left out" % (pasid, has, wanted))

    def texts(self):
        """The notes as lines, those of lines last, by their numbers."""
        numbers = {each: int(each.split()[1][:-1]) if each.startswith("line ") else 0 for each in self}
        some = sorted(self, key=lambda each: (numbers[each], each))
        return [each if each.startswith(("line ", "no ")) else "%s: %d" % (each, self[each]) for each in some]

    def sum_of(self, word):
        """How many things are noted in the notes that begin with this word."""
        return sum(count for each, count in self.items() if each.startswith(word))
