"""`clearing-shock` writes the banks that a scenario leaves, which are those that `stress` clears."""
from common import HUB, TWELVE, clearing, records
from evidences import SCENARIOS, EvidenceCase, evidence


class Shock(EvidenceCase):
    """The banks that a scenario leaves, written by `clearing-shock`."""

    def test_a_shock_leaves_what_stress_clears(self):
        generated = [self.file("b.csv"), self.file("d.csv")]
        files = ["--banks", generated[0], "--debts", generated[1]]
        self.made("clearing-gen-files", "--seed", 3, "--size", 200, "--tries", 900, *files)
        wild = "".join(
            f'[[scenario]]\nname = "{n}"\ncut = {37 * n}\n'
            + "".join(f'[[scenario.loss]]\nbank = "N{(n * k) % 200}"\namount = {k * k}\n' for k in range(1, 9))
            for n in range(1, 5)
        )
        hostile, hostile_scenarios = self.hostile_files()
        for banks, debts, scenarios in [
            (TWELVE / "banks.csv", TWELVE / "debts.csv", TWELVE / "scenarios.toml"),
            (HUB / "banks.csv", HUB / "debts.csv", self.file("hub.toml", SCENARIOS)),
            (*generated, self.file("wild.toml", wild)),
            (hostile[1], hostile[3], hostile_scenarios),
        ]:
            words = ["--banks", banks, "--debts", debts, "--scenarios", scenarios]
            blocks = self.printed("stress", *words).split("\n\n")
            for number, block in enumerate(blocks, 1):
                left = self.file("left.csv")
                shocked = ["--banks", banks, "--scenarios", scenarios, "--scenario", number]
                self.assertEqual(self.made("clearing-shock", *shocked, "--output", left), "")
                self.assertEqual(self.made("clearing-shock", *shocked), left.read_text())
                files = ["--banks", left, "--debts", debts]
                made = self.printed("clear", *files) + self.printed("defaults", *files)
                self.assertEqual(block.split("\n", 1)[1].rstrip("\n"), made.rstrip("\n"))
                # And it is in the form in which it is printed.
                self.assertEqual(self.printed("check", *files).split("\n\n")[1] + "\n", left.read_text())

    def test_a_cut_takes_whole_units_to_the_last_of_the_largest_cash(self):
        """Of such amounts the product of a binary fraction may be a unit less than the exact one."""
        amounts = [750, 3000, 375_448_265_625, 660_987_054_100, 919_277_310_750, 10**12 - 1, 10**12]
        cuts = [1, 9, 18, 36, 72, 288, 410, 999]
        banks = self.file("b.csv", "name,cash,rule\n" + "".join(f"B{cash},{cash},order\n" for cash in amounts))
        debts = self.file("d.csv", "debtor,creditor,class,claim\n")
        text = "".join(f'[[scenario]]\nname = "{cut}"\ncut = {cut}\n' for cut in cuts)
        words = ["--banks", banks, "--scenarios", self.file("s.toml", text)]
        blocks = self.printed("stress", *words, "--debts", debts).split("\n\n")
        for number, (cut, block) in enumerate(zip(cuts, blocks), 1):
            left = records(self.made("clearing-shock", *words, "--scenario", number))
            self.assertEqual([int(cash) for _, cash, _ in left], [cash - cash * cut // 1000 for cash in amounts], cut)
            standings = records(block[block.index("\nbank,") + 1 :])[: len(amounts)]
            self.assertEqual([cash for _, cash, _ in left], [estate for _, estate, *_ in standings], cut)

    def test_a_byte_order_mark_above_scenarios_is_dropped(self):
        banks, debts = HUB / "banks.csv", HUB / "debts.csv"
        plain, marked = self.file("s.toml", SCENARIOS), self.file("marked.toml", b"\xef\xbb\xbf" + SCENARIOS.encode())
        words = ["--banks", banks, "--debts", debts, "--scenarios"]
        self.assertEqual(self.printed("stress", *words, plain), self.printed("stress", *words, marked))
        left = [
            self.made("clearing-shock", "--banks", banks, "--scenarios", name, "--scenario", 2)
            for name in (plain, marked)
        ]
        self.assertEqual(left[0], left[1])
        folder = self.folder / "evidence"
        done = evidence("make", folder, *words, marked, "--bank", "South")
        self.assertEqual((done.returncode, done.stderr), (0, b""))
        self.assertEqual((folder / "inputs/scenarios.toml").read_bytes(), marked.read_bytes())
        done = evidence("check", folder)
        self.assertEqual((done.returncode, done.stderr), (0, b""), done.stdout)
        # One alone, and at the start alone, as the program has it.
        for text in (b"\xef\xbb\xbf" + marked.read_bytes(), SCENARIOS.encode() + b"\xef\xbb\xbf"):
            name = self.file("more.toml", text)
            done = clearing("stress", *words, name)
            self.assertEqual((done.returncode, done.stderr), (4, b"clearing: scenarios row 0: toml (16)\n"))
            self.refused(
                "clearing-shock",
                4,
                "scenarios row 0: toml (16)",
                "--banks",
                banks,
                "--scenarios",
                name,
                "--scenario",
                1,
            )

    def test_a_scenario_that_is_refused_is_refused_alike(self):
        head = '[[scenario]]\nname = "a"\n'
        for text in [
            "x",
            "scenario = 1",
            "y = 1\n[[scenario]]\nname = 'a'",
            "[[scenario]]\ncut = 1",
            head + "cut = 1001",
            head + "cut = -1",
            head + "cut = 1.0",
            head + "cut = true",
            head + "cut = 9223372036854775808",
            head + "[[scenario]]\nname = 'b,'",
            head + "[[scenario.loss]]\nbank = 'Nord'\namount = 1",
            head + "[[scenario.loss]]\nbank = 'South'",
            head + "[[scenario.loss]]\nbank = 'South'\namount = 1000000000001",
            head + "loss = 3",
            head + "other = 3",
            head + "[[scenario.loss]]\nbank = 'South'\namount = 1\n" * 2,
            head * 101,
            b"\xff",
            head + "cut = 1\n cut = 2",
        ]:
            scenarios = self.file("s.toml", text)
            done = clearing(
                "stress", "--banks", HUB / "banks.csv", "--debts", HUB / "debts.csv", "--scenarios", scenarios
            )
            self.assertEqual(done.returncode, 4, text)
            message = done.stderr.decode().removeprefix("clearing: ")
            self.refused(
                "clearing-shock",
                4,
                "clearing-shock: " + message,
                "--banks",
                HUB / "banks.csv",
                "--scenarios",
                scenarios,
                "--scenario",
                1,
            )

    def test_a_shock_keeps_its_inputs(self):
        banks, scenarios = self.file("b.csv", (HUB / "banks.csv").read_bytes()), self.file("s.toml", SCENARIOS)
        link = self.folder / "link.csv"
        link.symlink_to(banks)
        words = ["--banks", banks, "--scenarios", scenarios]
        for output in (banks, scenarios, link):
            self.refused("clearing-shock", 2, "would be written over", *words, "--scenario", 1, "--output", output)
        self.refused("clearing-shock", 2, "none of the number 4", *words, "--scenario", 4)
        self.refused("clearing-shock", 3, "cannot read", *words[:3], self.folder / "none", "--scenario", 1)
        self.refused(
            "clearing-shock", 5, "cannot write", *words, "--scenario", 1, "--output", self.folder / "none" / "x"
        )
        self.assertEqual((banks.read_bytes(), scenarios.read_text()), ((HUB / "banks.csv").read_bytes(), SCENARIOS))
