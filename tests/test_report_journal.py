"""The journal of a report: millions of raises are read as they come, and the player's steps are few."""
import pathlib
import subprocess
import sys

from common import PACKAGES, Case

from clearing_tools.report.journal import MOST_CHANGES, MOST_FRAMES, frames_of, read_journal

MEASURE = """
import resource, sys
from clearing_tools.report.journal import frames_of, read_journal
frames = frames_of(read_journal(sys.argv[1], {("A", "B", "1"): 0, ("B", "A", "1"): 1}))
print(len(frames), sum(frame[4] for frame in frames), frames[-1][5], resource.getrusage(resource.RUSAGE_SELF).ru_maxrss)
"""


class Journal(Case):
    def journal(self, raises: int) -> pathlib.Path:
        """A journal in which two banks pay each other one unit more in turn."""
        pairs = ("A,B", "B,A")
        text = "".join(f"{at},{pairs[at % 2]},1,{at // 2 + 1}\n" for at in range(raises))
        return self.file("journal.csv", f"stamp,debtor,creditor,class,to\n{text}\nrounds,{raises}\n")

    def test_two_million_raises_take_less_than_300_megabytes(self):
        name = self.journal(2_000_000)
        done = subprocess.run(
            [sys.executable, "-B", "-c", MEASURE, name], cwd=PACKAGES, capture_output=True, encoding="utf-8"
        )
        self.assertEqual((done.returncode, done.stderr), (0, ""))
        frames, raises, *_, kilobytes = done.stdout.replace("[", "").replace("]", "").replace(",", "").split()
        self.assertLessEqual(int(frames), MOST_FRAMES)
        self.assertEqual(int(raises), 2_000_000)
        self.assertIn("[0, 1000000, 1, 1000000]", done.stdout)
        self.assertLess(int(kilobytes), 300_000)

    def test_each_step_has_its_lines_stamps_and_what_is_then_paid(self):
        place = {("A", "B", "1"): 0, ("B", "A", "1"): 1}
        frames = frames_of(read_journal(self.journal(5), place))
        self.assertEqual(
            frames,
            [
                [2, 2, 0, 0, 1, [0, 1]],
                [3, 3, 1, 1, 1, [1, 1]],
                [4, 4, 2, 2, 1, [0, 2]],
                [5, 5, 3, 3, 1, [1, 2]],
                [6, 6, 4, 4, 1, [0, 3]],
            ],
        )
        frames = frames_of(read_journal(self.journal(MOST_FRAMES + 1), place))
        self.assertEqual((len(frames), frames[0]), ((MOST_FRAMES + 2) // 2, [2, 3, 0, 1, 2, [0, 1, 1, 1]]))
        self.assertLessEqual(sum(len(frame[5]) for frame in frames), 2 * MOST_CHANGES)
