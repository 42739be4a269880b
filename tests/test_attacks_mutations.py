"""Two thousand altered files over all readers of the package: none makes a traceback, and none has a number read
otherwise than another reader reads it (tests/system/mutations.py)."""
import unittest

import compared  # noqa: F401  # so that Python finds the modules of system/
from common import Case

import mutations

# A seed of its own for each change of the readers; those that found something are kept.
FILES, SEED = 2000, 20261130


class Mutations(Case):
    def test_altered_files_are_refused_or_read_alike(self):
        counts, wrong = mutations.run(FILES, SEED, self.folder)
        told = [f"{reader}, {name}: {what}\n{data[:300]!r}" for reader, name, data, what in wrong]
        self.assertEqual(told, [], f"seed {SEED}")
        # Neither is all refused nor all taken, by any reader.
        self.assertEqual(set(counts), {reader.__name__ for reader in mutations.READERS})
        self.assertGreaterEqual(
            sum(sum(taken.values()) for taken in counts.values()), FILES - 2 * len(mutations.READERS)
        )
        for reader, taken in counts.items():
            least = 1 if reader in ("Workbooks", "Commands", "Folders") else 10
            self.assertGreaterEqual(min(taken.get(True, 0), taken.get(False, 0)), least, (reader, taken))

    def test_what_is_wrong_is_found(self):
        """By a reader that takes a number otherwise, and by one that breaks."""
        read = mutations.audit.number
        self.addCleanup(setattr, mutations.audit, "number", read)
        for number in (lambda *words: read(*words) // 2, lambda *words: {}[7]):
            mutations.audit.number = number
            place = self.folder / f"wrong-{id(number)}"
            place.mkdir()
            reader = mutations.Networks(place)
            with self.assertRaises((mutations.Wrong, KeyError)):
                reader.read("hub", reader.whole["hub"])
        mutations.audit.number = read
        with self.assertRaises(mutations.Wrong):
            mutations.same_fields("debtor,creditor,class,claim,paid\nA,B,1,10,7\n", "A,B,1,10,8\n")


if __name__ == "__main__":
    unittest.main()
