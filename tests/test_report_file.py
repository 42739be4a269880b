"""The report as a file: whole, harmless, and only what the program says."""
import base64
import getpass
import hashlib
import html
import json
import os
import pathlib
import re
import shlex
import shutil
import signal
import socket
import subprocess
import time
from typing import List

from common import PACKAGES, PROGRAM, ROOT, clearing, is_running, tool
from clearing_tools.drawing import web
from clearing_tools.labels import shown
from browser import D3
from reports import PYTHON, TWELVE, Reader, Report, files_of, odd_net

# The files that a report makes of its inputs to answer a question, in the order of their names.
MADE_FOR_QUESTIONS = ["banks-order.csv", "banks-rescued.csv", "banks-unit.csv", "banks-webster.csv"]
MADE_FOR_QUESTIONS += ["debts-reversed.csv", "debts-unit.csv", "rescues.toml"]


class TheFile(Report):
    def test_a_line_of_a_script_that_is_in_no_form_that_is_read_is_told(self):
        web.check_forms("a.mjs", 'import { b, c } from "./b.mjs";\nexport const d = b + c;\nconst important = 1;\n')
        for name in web.modules():
            self.assertIn(name, web.needed(name))
        for line in (
            "export function f() {}",
            "export default 3;",
            "export { d };",
            'import b from "./b.mjs";',
            'import { b } from "./b.mjs"',
            'import "./b.mjs";',
        ):
            with self.assertRaisesRegex(ValueError, "^a.mjs: this line is in no form that is read: "):
                web.check_forms("a.mjs", f"{line}\n")

    def test_nothing_in_it_is_loaded_and_only_its_own_style_and_script_may_run(self):
        read = Reader(
            self.page(files_of(TWELVE), "--scenarios", TWELVE / "scenarios.toml", "--d3", self.file("d3.js", "0;"))
        )
        policy = next(
            a["content"]
            for tag, a in read.elements
            if tag == "meta" and a.get("http-equiv") == "Content-Security-Policy"
        )
        allowed = dict(part.split(" ", 1) for part in policy.split("; "))
        self.assertEqual(allowed["default-src"], "'none'")
        self.assertEqual(allowed["base-uri"], "'none'")
        self.assertNotIn("unsafe", policy)
        for tag, rule in (("style", "style-src"), ("script", "script-src")):
            texts = [text for kind, pairs, text in read.raw if kind == tag and pairs.get("type") != "application/json"]
            sums = [
                "'sha256-" + base64.b64encode(hashlib.sha256(text.encode()).digest()).decode() + "'" for text in texts
            ]
            self.assertEqual(sums, allowed.get(rule, "").split(), rule)
        for tag, pairs in read.elements:
            self.assertNotIn(tag, ("link", "img", "iframe", "object", "embed", "base", "form"))
            for name, value in pairs.items():
                self.assertFalse(name in ("style", "src", "srcset") or name.startswith("on"), (tag, name))
                if name in ("href", "xlink:href"):
                    self.assertTrue(value.startswith("#"), value)

    def test_links_lead_to_parts_of_the_page(self):
        read = Reader(self.page(files_of(TWELVE), "--scenarios", TWELVE / "scenarios.toml"))
        names = [pairs["id"] for _, pairs in read.elements if "id" in pairs]
        self.assertEqual(len(names), len(set(names)))
        links = {pairs["href"][1:] for tag, pairs in read.elements if tag == "a"}
        self.assertEqual(links - set(names), set())
        self.assertTrue({f"bank-{at}" for at in range(12)} <= links)

    def test_names_stand_as_they_are(self):
        files, names = odd_net(self.folder)
        read = Reader(self.page(files, "--title", "<u>Title</u> & 'more'", "--d3", self.file("d3.js", "0;")))
        rows = {int(pairs["data-bank"]): cells[0] for pairs, cells in read.rows if "data-bank" in pairs}
        self.assertEqual([rows[at] for at in range(len(rows))], list(map(shown, names)))
        self.assertFalse([tag for tag, _ in read.elements if tag in ("img", "u")])
        data = json.loads(next(text for _, pairs, text in read.raw if pairs.get("type") == "application/json"))
        self.assertEqual(data["names"], list(map(shown, names)))

    def test_a_sign_that_is_not_seen_is_shown_once(self):
        """In sentences, tables, pictures and files, names of banks and of scenarios, as a page and in what was changed:
        a code is never shown as a code again."""
        names = ["A\u202eA", "B\u200b", "\ufeffC", "D\u2028"]
        banks = self.file(
            "banks.csv", "name,cash,rule\n" + "".join(f"{name},{at},order\n" for at, name in enumerate(names))
        )
        debts = self.file(
            "debts.csv", "debtor,creditor,class,claim\n" + "".join(f"{a},{b},1,9\n" for a, b in zip(names, names[1:]))
        )
        losses = "".join(f'[[scenario]]\nname = "lost\u202e{at}"\ncut = 500\n' for at in range(2))
        changed = self.file("changes.txt", "A<U+202E>A loses 3 of its cash.\n")
        text = html.unescape(
            self.page(
                ["--banks", banks, "--debts", debts], "--scenarios", self.file("s.toml", losses), "--changes", changed
            )
        )
        for name in map(shown, names):
            self.assertGreater(text.count(name), 10, name)
        twice = text.find("<U+003C>")
        self.assertEqual(twice, -1, text[max(0, twice - 200) : twice + 100])

    def test_full_names_stand_in_place_of_the_names(self):
        labels = self.file(
            "l.csv", "code,name\nDunmore,<u>Dunmore</u> & Co\nKemi,\u05d1\u05e0\u05e7\u202e\nNobody,nowhere\n"
        )
        text = self.page(files_of(TWELVE), "--labels", labels, "--d3", self.file("d3.js", "0;"))
        read = Reader(text)
        rows = {pairs["data-bank"]: cells[0] for pairs, cells in read.rows if "data-bank" in pairs}
        self.assertEqual((rows["3"], rows["0"]), ("<u>Dunmore</u> & Co", "Alster"))
        self.assertIn("\u05d1\u05e0\u05e7<U+202E>", rows.values())
        self.assertFalse([tag for tag, _ in read.elements if tag == "u"])
        self.assertNotIn("nowhere", text)
        # In the summary, above the part of the bank and in the picture; and the script can find it.
        self.assertIn("<li>&lt;u&gt;Dunmore&lt;/u&gt; &amp; Co and Isar could not pay", text)
        self.assertIn("&lt;u&gt;Dunmore&lt;/u&gt; &amp; Co: in default, label own fundamentals</h3>", text)
        self.assertIn("<title>&lt;u&gt;Dunmore&lt;/u&gt; &amp; Co: in default", text)
        # The name of the files is told once, among the evidence.
        self.assertIn("<code>Dunmore</code> is &lt;u&gt;Dunmore&lt;/u&gt; &amp; Co", text)
        data = json.loads(next(text for _, pairs, text in read.raw if pairs.get("type") == "application/json"))
        self.assertEqual(
            data["full"], {"3": "<u>Dunmore</u> & Co", str(data["names"].index("Kemi")): "\u05d1\u05e0\u05e7<U+202E>"}
        )
        # Its file is among the evidence.
        self.assertIn("l.csv", text)
        self.page(
            files_of(TWELVE),
            "--labels",
            self.file("l.csv", "name\n"),
            status=1,
            message="the first row is not code,name",
        )

    def reported(self) -> List[List[str]]:
        """A report is made in a folder that has its inputs, and keeps what it made besides in `kept`: the rows of the
        tables of its page."""
        for name in ("banks.csv", "debts.csv", "scenarios.toml"):
            shutil.copy(TWELVE / name, self.folder / name)
        files = ["--banks", "banks.csv", "--debts", "debts.csv", "--scenarios", "scenarios.toml"]
        words = [*files, "--default-keeps", "800", "--out", "r.html", "--keep", "kept"]
        done = tool("clearing-report", *words, cwd=self.folder, python=PYTHON)
        self.assertEqual((done.returncode, done.stderr), (0, "") if os.path.exists(D3) else (0, done.stderr))
        return [cells for _, cells in Reader((self.folder / "r.html").read_text(encoding="utf-8")).rows]

    def test_the_evidence_has_each_input_with_its_size_and_its_checksum(self):
        rows, kept = self.reported(), self.folder / "kept"
        inputs = {cells[1]: cells for cells in rows if len(cells) == 4 and re.fullmatch("[0-9a-f]{64}", cells[3])}
        for name in ("banks.csv", "debts.csv", "scenarios.toml"):
            content = (self.folder / name).read_bytes()
            self.assertEqual(inputs[name][2:], [f"{len(content):,}", hashlib.sha256(content).hexdigest()])
        made = [cells[1] for cells in inputs.values() if cells[0] == "made for a question"]
        self.assertEqual(sorted(made), MADE_FOR_QUESTIONS)
        for name in made:
            self.assertEqual(inputs[name][3], hashlib.sha256((kept / name).read_bytes()).hexdigest())

    def test_each_command_of_the_evidence_makes_its_output_again(self):
        rows, kept = self.reported(), self.folder / "kept"
        commands = [cells for cells in rows if len(cells) == 3 and cells[0].startswith("clearing ")]
        self.assertEqual(len(commands), 16)
        for name in MADE_FOR_QUESTIONS:
            shutil.copy(kept / name, self.folder / name)
        shell = f'clearing() {{ {shlex.quote(PROGRAM)} "$@"; }}\n'
        for words, status, digest in commands:
            name = words.split(" > ")[1]
            again = subprocess.run(["bash", "-c", shell + words], cwd=self.folder, stdin=subprocess.DEVNULL)
            self.assertEqual(again.returncode, int(status), words)
            content = (self.folder / name).read_bytes()
            self.assertEqual(hashlib.sha256(content).hexdigest(), digest, words)
            self.assertEqual((kept / name).read_bytes(), content)

    def test_nothing_is_said_of_who_made_it_where(self):
        text = self.page(files_of(TWELVE), "--scenarios", TWELVE / "scenarios.toml", "--d3", self.file("d3.js", "0;"))
        words = {
            "user": getpass.getuser() + "@",
            "host": socket.gethostname(),
            "folder": str(self.folder),
            "repository": str(ROOT),
            "home": str(pathlib.Path.home()) + "/",
            "program": os.path.dirname(os.path.realpath(PROGRAM)),
            "python": PYTHON,
        }
        self.assertEqual([what for what, word in words.items() if word in text], [])
        read = Reader(text)
        self.assertIn(["banks", "banks.csv"], [cells[:2] for _, cells in read.rows])

    def test_a_file_that_changes_meanwhile_is_told(self):
        for name in ("banks.csv", "debts.csv", "scenarios.toml"):
            shutil.copy(TWELVE / name, self.folder / name)
        changed = shlex.quote(str(self.folder / "debts.csv"))
        program = self.file(
            "program", f'#!/bin/sh\n[ "$1" != bounds ] || echo >>{changed}\nexec {shlex.quote(PROGRAM)} "$@"\n'
        )
        program.chmod(0o755)
        words = [*files_of(self.folder), "--scenarios", self.folder / "scenarios.toml", "--out", self.folder / "r.html"]
        done = subprocess.run(
            [PYTHON, ROOT / "bin/clearing-report", *words],
            capture_output=True,
            encoding="utf-8",
            env={**os.environ, "CLEARING": str(program)},
        )
        self.assertEqual((done.returncode, done.stdout), (1, ""), done.stderr)
        self.assertEqual(
            done.stderr,
            f"clearing-report: {self.folder / 'debts.csv'} changed while the report was made; nothing is written\n",
        )
        self.assertFalse((self.folder / "r.html").exists())

    def test_without_jinja2_a_sentence_names_its_package(self):
        words = [*map(str, files_of(TWELVE)), "--out", str(self.folder / "r.html")]
        program = (
            f"import sys; sys.modules['jinja2'] = None; sys.argv = ['report.py', *{words!r}]; from"
            " clearing_tools.report import command; command.main()"
        )
        done = subprocess.run([PYTHON, "-B", "-c", program], cwd=PACKAGES, capture_output=True, encoding="utf-8")
        self.assertEqual((done.returncode, done.stdout), (2, ""))
        self.assertIn("python3-jinja2", done.stderr)
        self.assertIn("--system-site-packages", done.stderr)
        self.assertEqual(len(done.stderr.splitlines()), 1)

    def test_a_journal_that_is_not_lawful_is_told_and_not_played(self):
        journal = clearing("clear", *files_of(TWELVE), "--show", "journal", "--workers", "1").stdout.decode()
        lawful = self.file("journal.csv", journal.replace("\n", "\r\n"))
        text = self.page(files_of(TWELVE), "--journal", lawful)
        self.assertIn("lawful,49", text)
        self.assertIn('id="player"', text)
        altered = self.file("altered.csv", journal.replace("48,Birk,Kemi,2,643335", "48,Birk,Kemi,2,643336"))
        text = self.page(files_of(TWELVE), "--journal", altered)
        self.assertIn("unlawful,48,632223,643335", text)
        self.assertNotIn('id="player"', text)

    def test_what_cannot_be_done_is_refused(self):
        banks = self.file("banks.csv", (TWELVE / "banks.csv").read_bytes())
        before = banks.read_bytes()
        done = tool("clearing-report", "--banks", banks, "--debts", TWELVE / "debts.csv", "--out", banks, python=PYTHON)
        self.assertEqual((done.returncode, banks.read_bytes()), (1, before))
        self.assertIn("banks.csv", done.stderr)
        faulty = self.file("faulty.csv", "name,cash,rule\nA,x,order\n")
        self.page(["--banks", faulty, "--debts", TWELVE / "debts.csv"], status=1, message="banks row 1: number (4)")
        self.assertFalse((self.folder / "report.html").exists())
        self.page(files_of(TWELVE), "--unit", "-1", status=2, message="-1")
        self.page(files_of(TWELVE), "--d3", self.folder / "none.js", status=1, message="none.js")

    def test_without_d3_the_page_is_made_without_its_script(self):
        out = self.folder / "bare.html"
        words = [*map(str, files_of(TWELVE)), "--out", str(out)]
        program = (
            f"import sys; sys.argv = ['report.py', *{words!r}]; from clearing_tools.drawing import web;"
            " from clearing_tools.report import command; web.D3 = []; command.main()"
        )
        done = subprocess.run([PYTHON, "-B", "-c", program], cwd=PACKAGES, capture_output=True, encoding="utf-8")
        self.assertEqual((done.returncode, done.stdout), (0, ""))
        self.assertIn("node-d3", done.stderr)
        read = Reader(out.read_text(encoding="utf-8"))
        self.assertFalse([tag for tag, _ in read.elements if tag == "script"])
        self.assertEqual(len([1 for pairs, _ in read.rows if "data-bank" in pairs]), 12)

    def test_only_a_new_or_empty_folder_keeps_what_was_printed(self):
        words = [*files_of(TWELVE), "--out", self.folder / "r.html", "--keep"]
        kept, own = self.folder / "kept", self.folder / "own"
        kept.mkdir()
        own.mkdir()
        self.assertEqual(
            tool("clearing-report", *words, kept, "--scenarios", TWELVE / "scenarios.toml", python=PYTHON).returncode, 0
        )
        before = {path.name: path.read_bytes() for path in kept.iterdir()}
        self.assertIn("stress.csv", before)
        (own / "payments.csv").write_text("mine\n")
        (self.folder / "r.html").unlink()
        for place, cwd in ((kept, None), (".", own), (own / "payments.csv", None)):
            done = tool("clearing-report", *words, place, cwd=cwd, python=PYTHON)
            self.assertEqual((done.returncode, done.stdout), (2, ""), done.stderr)
            self.assertEqual(
                done.stderr, f"clearing-report: {place} is there and no empty folder; name another with --keep\n"
            )
        self.assertEqual({path.name: path.read_bytes() for path in kept.iterdir()}, before)
        self.assertEqual([(path.name, path.read_text()) for path in own.iterdir()], [("payments.csv", "mine\n")])
        self.assertFalse((self.folder / "r.html").exists())

    def test_an_interrupt_ends_at_once_and_leaves_nothing(self):
        place, told = self.folder / "tmp", self.folder / "told"
        place.mkdir()
        for task, number in (("defaults", signal.SIGINT), ("defaults", signal.SIGTERM), ("rescues", signal.SIGTERM)):
            script = f"#!/bin/sh\ncase $1 in {task}) echo $$ >>{shlex.quote(str(told))}; exec sleep 60;; esac\n"
            program = self.file("program", f'{script}exec {shlex.quote(PROGRAM)} "$@"\n')
            program.chmod(0o755)
            told.write_text("")
            running = subprocess.Popen(
                [
                    PYTHON,
                    "-B",
                    str(ROOT / "bin/clearing-report"),
                    *map(str, files_of(TWELVE)),
                    "--out",
                    str(self.folder / "r.html"),
                ],
                env={**os.environ, "CLEARING": str(program), "TMPDIR": str(place)},
                stdout=subprocess.PIPE,
                stderr=subprocess.PIPE,
            )
            self.addCleanup(running.kill)
            self.until(lambda: told.read_text().endswith("\n"))
            begun = time.monotonic()
            running.send_signal(number)
            output, messages = running.communicate(timeout=30)
            self.assertEqual((running.returncode, output, messages), (130, b"", b""))
            self.assertLess(time.monotonic() - begun, 20)
            self.assertEqual(list(place.iterdir()), [])
            self.assertFalse((self.folder / "r.html").exists())
            for process in told.read_text().split():
                self.until(lambda: not is_running(process), 5)

    def test_an_output_that_is_not_of_the_form_is_said(self):
        script = f'[ "$1" = "$TASK" ] || exec {shlex.quote(PROGRAM)} "$@"\nprintf "$SAID"\n'
        program = self.file("program", f"#!/bin/sh\n{script}")
        program.chmod(0o755)
        words = [
            *map(str, files_of(TWELVE)),
            "--scenarios",
            str(TWELVE / "scenarios.toml"),
            "--default-keeps",
            "500",
            "--out",
            str(self.folder / "r.html"),
        ]
        for task in (
            "check",
            "clear",
            "defaults",
            "bounds",
            "replay",
            "stress",
            "rescues",
            "impact",
            "breaking",
            "outcomes",
            "cost-bounds",
        ):
            for said in ("", "lawful\n", "\n\n\n", "a,b\n\nc\n\nd\n"):
                # Of a file without scenarios nothing is printed.
                if (task, said) == ("stress", ""):
                    continue
                done = subprocess.run(
                    [PYTHON, "-B", str(ROOT / "bin/clearing-report"), *words],
                    capture_output=True,
                    encoding="utf-8",
                    env={**os.environ, "CLEARING": str(program), "TASK": task, "SAID": said},
                )
                self.assertEqual((done.returncode, done.stdout), (1, ""), (task, said))
                self.assertEqual(
                    done.stderr, f"clearing-report: {program} did not print what `clearing {task}` does\n", said
                )

    def test_a_network_without_debts_or_scenarios_has_a_page(self):
        banks = self.file("banks.csv", "name,cash,rule\nA,0,order\n")
        debts = self.file("debts.csv", "debtor,creditor,class,claim\n")
        text = self.page(["--banks", banks, "--debts", debts, "--scenarios", self.file("none.toml", "")])
        self.assertIn("The file has no scenario", text)
        self.assertIn("None of one bank is in default", text)
