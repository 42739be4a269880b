"""The desk outlives a program that is killed and a full disk, and leaves nothing behind when it ends."""
import os
import pathlib
import re
import resource
import signal
import socket
import subprocess
import time
import unittest

from common import ROOT, TWELVE, files_of
from desk import PYTHON, DeskCase, swallow, wrapped


class Lasting(DeskCase):
    def test_two_tabs_do_not_disturb_one_another(self):
        desk = self.desk()
        one = two = 0
        for number in range(1, 6):
            one = desk.change(one, set="cut", value=str(number))["id"]
            two = desk.change(two, set="bank", bank=0, field="cash", value=str(number))["id"]
        first, second = desk.see(f"/state/{one}"), desk.see(f"/state/{two}")
        self.assertEqual((first["cut"], first["cash"][0], second["cut"], second["cash"][0]), (5, 2000000, 0, 5))
        self.assertEqual((len(first["line"]), len(second["line"])), (6, 6))
        self.assertFalse(set(first["line"][1:]) & set(second["line"][1:]))

    def test_a_program_that_is_killed_is_told_and_the_state_stays(self):
        flag = self.folder / "flag"
        desk = self.desk(program=wrapped(self, f"[ ! -e {flag} ] || kill -9 $$"))
        good = desk.change(0, set="cut", value="10")
        flag.touch()
        self.assertIn("ended by signal 9", desk.change(good["id"], 502, set="cut", value="20")["said"])
        self.assertEqual(desk.see(f"/state/{good['id']}"), good)
        number = desk.post("/ask", state=1, what="rescue", bank=3)["question"]
        self.until(lambda: desk.see(f"/question/{number}/0")["ended"])
        self.assertIn("ended with -9", desk.see(f"/question/{number}/0")["fault"])
        flag.unlink()
        self.assertEqual(desk.change(good["id"], set="cut", value="20")["id"], good["id"] + 1)

    def test_a_full_disk_is_told_and_the_state_stays(self):
        desk = self.desk()
        good = desk.change(0, set="cut", value="10")
        unlimited = resource.prlimit(desk.process.pid, resource.RLIMIT_FSIZE, (100, resource.RLIM_INFINITY))
        self.assertIn("File too large", desk.change(good["id"], 502, set="cut", value="20")["said"])
        self.assertEqual(desk.see(f"/state/{good['id']}"), good)
        self.assertEqual(list(desk.place.glob("*/*")), [])
        resource.prlimit(desk.process.pid, resource.RLIMIT_FSIZE, unlimited)
        self.assertEqual(desk.change(good["id"], set="cut", value="20")["id"], good["id"] + 1)


class Ending(DeskCase):
    def test_it_ends_and_leaves_nothing(self):
        told = self.file("told", "")
        program = wrapped(self, f"case $1 in rescues) echo $$ >>{told}; exec sleep 60;; esac")
        for number in (signal.SIGINT, signal.SIGTERM):
            desk = self.desk(program=program)
            told.write_text("")
            desk.post("/ask", state=0, what="rescue", bank=3)
            self.until(lambda: told.read_text().endswith("\n"))
            begun = time.monotonic()
            self.assertEqual(desk.end(number), (0, ""))
            self.assertLess(time.monotonic() - begun, 20)
            self.assertEqual(list(desk.place.iterdir()), [])
            for process in told.read_text().split():
                self.assertFalse(
                    os.path.exists(f"/proc/{process}")
                    and "sleep" in pathlib.Path(f"/proc/{process}/cmdline").read_text()
                )
            with self.assertRaises(ConnectionRefusedError):
                socket.create_connection(("127.0.0.1", desk.port), timeout=5)

    def test_it_ends_while_many_stand_in_the_way(self):
        desk = self.desk()
        held = [socket.create_connection(("127.0.0.1", desk.port), timeout=60) for _ in range(60)]
        for stream in held:
            stream.sendall(b"GET / HTTP/1.1\r\nHost: ")
        time.sleep(1)
        begun = time.monotonic()
        self.assertEqual(desk.end(), (0, ""))
        self.assertLess(time.monotonic() - begun, 10)
        for stream in held:
            stream.close()

    def test_it_ends_when_it_is_not_asked(self):
        desk = self.desk(None, "--idle", "0.05")
        for _ in range(4):
            time.sleep(1.5)
            desk.see("/network")
        # Those who are refused do not keep it.
        ends = time.monotonic() + 60
        while desk.process.poll() is None and time.monotonic() < ends:
            swallow(lambda: desk.ask("GET", "/network", {}))
            time.sleep(0.2)
        self.assertEqual(desk.process.poll(), 0)
        self.assertEqual(list(desk.place.iterdir()), [])

    def test_the_browser_is_opened_by_a_file_of_one_s_own(self):
        shown = self.file("shown")
        browser = self.executable(
            "browser",
            f'stat -c %a "${{1#file://}}" >{shown}.part; cat "${{1#file://}}" >>{shown}.part\n'
            f'echo "$*" >>{shown}.part; mv {shown}.part {shown}\n',
        )
        process = subprocess.Popen(
            [PYTHON, "-B", str(ROOT / "bin/clearing-desk"), *map(str, files_of(TWELVE))],
            stdout=subprocess.PIPE,
            encoding="utf-8",
            env={**os.environ, "BROWSER": str(browser)},
            stderr=subprocess.PIPE,
        )
        self.addCleanup(lambda: (process.terminate(), process.communicate()))
        link = re.search("http://[^ \n]*", process.stdout.readline())[0]
        self.until(shown.exists)
        mode, rest = shown.read_text().split("\n", 1)
        page, words = rest.rsplit(">", 1)
        self.assertEqual(mode, "600")
        self.assertIn(f"url={link}", page)
        self.assertNotIn(link.split("/")[3], words)


if __name__ == "__main__":
    unittest.main()
