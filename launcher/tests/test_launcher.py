#!/usr/bin/env python3
"""Tests of `./streams` and launcher/ over a small repository, with a stub for `rt`."""
import os
import pathlib
import re
import select
import shutil
import signal
import socket
import subprocess
import sys
import tempfile
import time
import unittest
from unittest import mock

ROOT = pathlib.Path(__file__).resolve().parent.parent.parent
STUBS = ROOT / "launcher" / "tests"
NOBODY = 65534


class Launcher(unittest.TestCase):
    def setUp(self):
        self.folder = pathlib.Path(tempfile.mkdtemp())
        self.addCleanup(shutil.rmtree, self.folder, ignore_errors=True)
        self.folder.chmod(0o777)
        self.top, self.stub, self.bin, self.tmp = (self.folder / name for name in ("top", "stub", "bin", "tmp"))
        for path in (self.stub, self.bin, self.tmp):
            path.mkdir()
            path.chmod(0o777)
        shutil.copytree(ROOT / "launcher", self.top / "launcher")
        shutil.copy(ROOT / "streams", self.top)
        self.set_crates("low: bytes", "streams may_wait=1: low", "above: low")
        (self.top / "HANDLES").write_text("Handles allowed: none.\n")
        (self.bin / "rt").symlink_to(STUBS / "rt")
        self.env = {"PATH": f"{self.bin}:{os.environ['PATH']}", "STUB": str(self.stub), "TMPDIR": str(self.tmp)}

    def tearDown(self):
        # A build that goes on by itself is left nothing of.
        self.until(lambda: not self.living(), "a process is left")

    def living(self):
        """The processes that work for this test's repository."""
        found = []
        for at in pathlib.Path("/proc").iterdir():
            if at.name.isdigit() and int(at.name) != os.getpid():
                try:
                    if f"STUB={self.stub}\0".encode() in (at / "environ").read_bytes() and (at / "stat").read_text().rsplit(")", 1)[1].split()[0] != "Z":
                        found.append(int(at.name))
                except OSError:
                    pass
        return found

    def until(self, holds, why, seconds=20):
        end = time.monotonic() + seconds
        while not holds():
            self.assertLess(time.monotonic(), end, why)
            time.sleep(0.05)

    def set(self, name, text=""):
        (self.stub / name).write_text(text)

    def set_crates(self, *rows):
        """Has these rows in crates.txt, and such crates."""
        for row in rows:
            crate = re.match(r"\w+", row)[0]
            source = self.top / "crates" / crate / "src"
            source.mkdir(parents=True, exist_ok=True)
            (source / "lib.rt").write_text(f"//! {crate}\n")
        (self.top / "crates.txt").write_text("".join(f"{row}\n" for row in rows))

    def calls(self, *verbs):
        calls = self.stub / "calls"
        return [line for line in (calls.read_text().splitlines() if calls.exists() else []) if line.split()[0] in verbs]

    def run_streams(self, *words, given=b"", program=None, **how):
        how.setdefault("cwd", self.folder)
        env = {**self.env, **how.pop("env", {})}
        return subprocess.run([program or self.top / "streams", *words], input=given, capture_output=True, env=env, timeout=60, **how)

    def built(self):
        """Has the program built."""
        self.assertEqual(self.run_streams("run", given=b"x", env={"STREAMS_PROVED": "1"}).stdout, b"x")

    def assert_ended(self, ran, status, words):
        """Whether the launcher said why it ended, in these words, with nothing on its output and no traceback."""
        self.assertEqual((ran.returncode, ran.stdout), (status, b""), ran.stderr)
        said = ran.stderr.decode()
        self.assertRegex(said, words)
        self.assertNotIn("Traceback", said)
        return said

    # A first answer.

    def test_a_small_job_is_answered_while_the_proof_goes_on(self):
        self.set("ci_seconds", "3")
        ran = self.run_streams("run", given=b"hello\n")
        self.assertEqual((ran.returncode, ran.stdout), (0, b"hello\n"), ran.stderr)
        line = ran.stderr.decode().splitlines()[-1]
        for word in ("isn't proved yet", "accesses, sums and unwraps", "contracts", "The proof goes on", "build.log"):
            self.assertIn(word, line)
        self.assertFalse((self.top / "crates/streams/out/streams").exists())
        self.until((self.top / "crates/streams/out/sources.sum").exists, "the build goes on")
        ran = self.run_streams("run", given=b"again\n")
        self.assertEqual((ran.returncode, ran.stdout, ran.stderr), (0, b"again\n", b""))

    def test_an_answer_has_the_status_and_the_notes_of_the_program(self):
        plan = self.folder / "a plan.toml"
        plan.write_text("plan\n")
        ran = self.run_streams("run", "a plan.toml", given=b"input\n")
        self.assertEqual((ran.returncode, ran.stdout), (1, b"plan\ninput\n"), ran.stderr)
        self.assertEqual(ran.stderr.decode().splitlines()[-1], "stage 1 code 1 place 0")
        ran = self.run_streams("run", "--trace", "a plan.toml", given=b"input\n")
        self.assertEqual((ran.returncode, ran.stdout), (0, b"plan\ninput\n"), ran.stderr)
        self.assertEqual(ran.stderr.decode().splitlines()[-1], "edge 1 down close taken 1")
        self.assertEqual(self.run_streams("run", "--trace", given=b"input\n").returncode, 2)
        ran = self.run_streams("gen", "6", "1", "a plan.toml", given=b"input\n")
        self.assertEqual((ran.returncode, ran.stdout), (0, b"in 6\nplan\n"), ran.stderr)

    def test_a_missing_file_is_missing_for_an_answer_too(self):
        for name in ("stdin", "none.toml", "."):
            ran = self.run_streams("check", name)
            self.assertEqual((ran.returncode, ran.stdout), (9, b""), ran.stderr)
            self.assertTrue(ran.stderr.endswith(b"load fault\n"))
        self.assertEqual(self.run_streams("gen", "6", "1", "none.toml").returncode, 9)

    def test_words_that_are_no_command_need_no_input(self):
        end, to = os.pipe()
        self.addCleanup(os.close, to)
        with open(end) as pipe:
            ran = subprocess.run([self.top / "streams", "what"], stdin=pipe, capture_output=True, env=self.env, timeout=60)
        self.assertEqual((ran.returncode, ran.stdout), (2, b""), ran.stderr)
        self.assertTrue(ran.stderr.endswith(b"\nusage\n"))

    def test_an_answer_into_a_full_device_is_a_write_fault(self):
        with open("/dev/full", "wb") as full:
            ran = subprocess.run([self.top / "streams", "run"], input=b"x", stdout=full, stderr=subprocess.PIPE, env=self.env, timeout=60)
        self.assertEqual(ran.returncode, 5, ran.stderr)
        self.assertTrue(ran.stderr.endswith(b"\nwrite fault\n"))

    def test_a_file_that_the_program_does_not_read_is_left_where_it_was(self):
        self.set("ci_seconds", "60")
        (self.folder / "in").write_bytes(b"some bytes")
        with open(self.folder / "in", "rb") as given:
            # (the stub takes `script` for no command)
            for words, status in ((["script"], 2), (["run", "none.toml"], 9), (["run", "--trace"], 2), (["check", "none.toml"], 9)):
                ran = subprocess.run([self.top / "streams", *words], stdin=given, capture_output=True, env=self.env, timeout=60)
                self.assertEqual((ran.returncode, os.lseek(given.fileno(), 0, os.SEEK_CUR)), (status, 0), ran.stderr)
        self.assertEqual(len(self.calls("try")), 4)
        os.kill(int((self.top / "crates/streams/out/build.lock").read_text()), signal.SIGTERM)

    def test_a_pipeline_file_that_is_the_standard_input(self):
        (self.folder / "in").write_bytes(b"a plan\n")
        with open(self.folder / "in", "rb") as given:
            ran = subprocess.run([self.top / "streams", "check", "/dev/stdin"], stdin=given, capture_output=True, env=self.env, timeout=60)
        self.assertEqual((ran.returncode, ran.stdout), (0, b"a plan\n"), ran.stderr)
        self.assertEqual(len(self.calls("try")), 1)

    def test_a_file_is_left_behind_what_was_answered(self):
        (self.folder / "in").write_bytes(b"some bytes")
        with open(self.folder / "in", "rb") as given:
            given.seek(5)
            ran = subprocess.run([self.top / "streams", "run"], stdin=given, capture_output=True, env=self.env, timeout=60)
            self.assertEqual((ran.stdout, os.lseek(given.fileno(), 0, os.SEEK_CUR)), (b"bytes", 10))

    # Jobs that wait for the proved program.

    def test_where_there_is_no_answer_the_input_is_kept(self):
        self.set("no_answer")
        ran = self.run_streams("run", given=b"kept\n")
        self.assertEqual((ran.returncode, ran.stdout), (0, b"kept\n"), ran.stderr)
        self.assertIn(b"waits for the proved program", ran.stderr)
        self.assertEqual(len(self.calls("ci")), 1)

    def test_input_that_goes_on_is_kept_and_goes_on(self):
        asked = subprocess.Popen([self.top / "streams", "run"], stdin=subprocess.PIPE, stdout=subprocess.PIPE, stderr=subprocess.PIPE, env=self.env)
        asked.stdin.write(b"first\n")
        asked.stdin.flush()
        self.assertTrue(select.select([asked.stdout], [], [], 20)[0])
        self.assertEqual(asked.stdout.readline(), b"first\n")
        # From here on it is the proved program that answers, line by line.
        asked.stdin.write(b"second\n")
        asked.stdin.flush()
        self.assertEqual(asked.stdout.readline(), b"second\n")
        out, said = asked.communicate(b"last\n", timeout=20)
        self.assertEqual((asked.returncode, out), (0, b"last\n"), said)
        self.assertEqual(self.calls("try"), [])

    def test_a_terminal_waits_and_says_so(self):
        end, to = os.openpty()
        self.addCleanup(os.close, end)
        with open(to) as terminal:
            asked = subprocess.Popen([self.top / "streams", "run"], stdin=terminal, stdout=subprocess.PIPE, stderr=subprocess.PIPE, env=self.env)
        os.write(end, b"typed\n\x04")
        out, said = asked.communicate(timeout=20)
        self.assertEqual((asked.returncode, out), (0, b"typed\n"), said)
        self.assertIn(b"this waits for it", said)
        self.assertEqual(self.calls("try"), [])

    def test_input_of_more_than_64_mib_is_kept(self):
        much = bytes(range(256)) * (65 << 12)
        ran = self.run_streams("run", given=much)
        self.assertEqual(ran.returncode, 0, ran.stderr)
        self.assertTrue(ran.stdout == much)
        self.assertEqual(self.calls("try"), [])

    def test_a_program_that_is_done_before_its_input_leaves_no_process(self):
        # (the stub takes `script` for no command, and ends)
        asked = subprocess.Popen([self.top / "streams", "script"], stdin=subprocess.PIPE, stdout=subprocess.PIPE, stderr=subprocess.PIPE, env=self.env)
        asked.stdin.write(b"first\n")
        asked.stdin.flush()
        self.assertEqual(asked.wait(20), 2)
        self.assertIn(b"this waits for it", asked.stderr.read())
        self.until(lambda: not self.living(), "a process is left, though nobody reads what it would give")
        for it in (asked.stdin, asked.stdout, asked.stderr):
            it.close()

    def test_of_a_socket_nothing_is_taken(self):
        here, there = socket.socketpair()
        with here, there:
            asked = subprocess.Popen([self.top / "streams", "run"], stdin=there, stdout=subprocess.PIPE, stderr=subprocess.PIPE, env=self.env)
            here.sendall(b"sent\n")
            here.shutdown(socket.SHUT_WR)
            out, said = asked.communicate(timeout=20)
        self.assertEqual((asked.returncode, out), (0, b"sent\n"), said)
        self.assertEqual(self.calls("try"), [])

    def test_an_input_that_cannot_be_read_is_the_programs(self):
        with open(self.folder / "out", "wb") as unreadable:
            ran = subprocess.run([self.top / "streams", "run"], stdin=unreadable, capture_output=True, env=self.env, timeout=60)
        self.assertEqual((ran.returncode, ran.stdout), (1, b""), ran.stderr)
        self.assertIn(b"Bad file descriptor", ran.stderr)

    def test_a_closed_input_stays_closed(self):
        ran = subprocess.run(["sh", "-c", 'exec "$0" run <&-', self.top / "streams"], capture_output=True, env=self.env, timeout=60)
        self.assertEqual((ran.returncode, ran.stdout), (1, b""), ran.stderr)
        self.assertIn(b"Bad file descriptor", ran.stderr)

    # Builds.

    def test_with_the_variable_set_a_job_waits_for_the_proof(self):
        self.set("ci_seconds", "1")
        ran = self.run_streams("run", given=b"x", env={"STREAMS_PROVED": "1"})
        self.assertEqual((ran.returncode, ran.stdout), (0, b"x"), ran.stderr)
        self.assertEqual(self.calls("try"), [])
        self.assertRegex(ran.stderr.decode(), r"low proved: 50 % of the work, 0 min 0\d s, about 0 min \d\d s left")
        self.assertEqual(list(self.tmp.iterdir()), [])

    def test_a_build_says_how_far_it_is_whatever_rt_says(self):
        script = self.top / "launcher/build.py"
        text = script.read_text()
        self.assertIn("HEARTBEAT_SECONDS = 30\n", text)
        script.write_text(text.replace("HEARTBEAT_SECONDS = 30\n", "HEARTBEAT_SECONDS = 0.5\n"))
        self.set("ci_seconds", "4")
        ran = self.run_streams("run", given=b"x", env={"STREAMS_PROVED": "1"})
        self.assertGreaterEqual(len(re.findall("^streams: proving: ", ran.stderr.decode(), re.MULTILINE)), 4, ran.stderr)
        # Before a crate is proved nobody knows how fast this machine is.
        self.assertRegex(ran.stderr.decode(), r"proving: 0 % of the work, 0 min 0\d s, about \d min \d\d s left on the machine of docs/GATE.md\n")

    def test_three_at_once_prove_once(self):
        self.set("ci_seconds", "2")
        asked = [
            subprocess.Popen([self.top / "streams", "run"], stdin=subprocess.DEVNULL, stdout=subprocess.PIPE, stderr=subprocess.PIPE, env={**self.env, "STREAMS_PROVED": "1"})
            for _ in range(3)
        ]
        for it in asked:
            _, said = it.communicate(timeout=60)
            self.assertEqual(it.returncode, 0, said)
        self.assertEqual(len(self.calls("ci")), 1)

    def test_a_build_that_is_ended_leaves_nothing_and_can_be_started_again(self):
        self.set("ci_seconds", "60")
        for number in (signal.SIGINT, signal.SIGTERM, signal.SIGHUP):
            before = len(self.calls("ci"))
            asked = subprocess.Popen(
                [self.top / "streams", "run"], stdin=subprocess.DEVNULL, stdout=subprocess.PIPE, stderr=subprocess.PIPE, env={**self.env, "STREAMS_PROVED": "1"}
            )
            self.until(lambda: len(self.calls("ci")) > before, "rt is at work")
            asked.send_signal(number)
            _, said = asked.communicate(timeout=20)
            self.assertEqual(asked.returncode, 75, said)
            self.assertNotIn(b"Traceback", said)
            self.until(lambda: not self.living(), "a process is left")
            self.assertEqual(list(self.tmp.iterdir()), [])
        self.set("ci_seconds", "0")
        self.built()

    def test_a_build_that_is_ended_twice_leaves_nothing(self):
        # It takes a second to remove its copy.
        script, leaves = self.top / "launcher/build.py", "        yield pathlib.Path(folder)\n    finally:\n"
        text = script.read_text()
        self.assertEqual(text.count(leaves), 1)
        script.write_text(text.replace(leaves, f"{leaves}        open({str(self.stub / 'leaves')!r}, 'w').close()\n        time.sleep(1)\n"))
        self.set("ci_seconds", "60")
        asked = subprocess.Popen([self.top / "streams", "run"], stdin=subprocess.DEVNULL, stdout=subprocess.PIPE, stderr=subprocess.PIPE, env={**self.env, "STREAMS_PROVED": "1"})
        self.until(lambda: self.calls("ci"), "rt is at work")
        asked.send_signal(signal.SIGTERM)
        self.until((self.stub / "leaves").exists, "it ends")
        asked.send_signal(signal.SIGHUP)
        _, said = asked.communicate(timeout=20)
        self.assertEqual(asked.returncode, 75, said)
        self.assertNotIn(b"Traceback", said)
        self.assertEqual(list(self.tmp.iterdir()), [])

    def test_a_build_that_is_not_to_hear_of_a_signal(self):
        self.set("ci_seconds", "2")
        for number, ignored in ((signal.SIGHUP, "HUP"), (signal.SIGINT, "INT")):
            before = len(self.calls("ci"))
            (self.top / "crates/streams/out/streams").unlink(missing_ok=True)
            asked = subprocess.Popen(
                ["sh", "-c", f'trap "" {ignored}; exec "$0" run', self.top / "streams"],
                stdin=subprocess.DEVNULL, stdout=subprocess.PIPE, stderr=subprocess.PIPE, env={**self.env, "STREAMS_PROVED": "1"},
            )
            self.until(lambda: len(self.calls("ci")) > before, "rt is at work")
            asked.send_signal(number)
            _, said = asked.communicate(timeout=20)
            self.assertEqual(asked.returncode, 0, said)

    def test_a_build_leaves_the_folder_of_another_one_that_lives(self):
        # (the stub sleeps for a twentieth of that, and then asks again how long)
        self.set("ci_seconds", "400")
        asked = subprocess.Popen([self.top / "streams", "run"], stdin=subprocess.DEVNULL, stdout=subprocess.PIPE, stderr=subprocess.PIPE, env={**self.env, "STREAMS_PROVED": "1"})
        self.until(lambda: self.calls("ci"), "rt is at work")
        shutil.rmtree(self.top / "crates/streams/out")
        self.set("ci_seconds", "0")
        self.built()
        self.assertEqual(len(list(self.tmp.iterdir())), 1)
        asked.kill()
        asked.communicate(timeout=20)

    def ended_behind_low(self):
        """What a build says that is ended once the crate low was proved."""
        self.set("ci_seconds_streams", "60")
        asked = subprocess.Popen([self.top / "streams", "run"], stdin=subprocess.DEVNULL, stdout=subprocess.PIPE, stderr=subprocess.PIPE, env={**self.env, "STREAMS_PROVED": "1"})
        far = self.top / "crates/streams/out/build.progress"
        self.until(lambda: far.exists() and far.read_text().startswith("low proved"), "a crate is proved")
        asked.send_signal(signal.SIGTERM)
        _, said = asked.communicate(timeout=20)
        self.assertEqual(asked.returncode, 75, said)
        (self.stub / "ci_seconds_streams").unlink()
        return said.decode()

    def test_with_a_kit_that_keeps_the_next_build_goes_on(self):
        self.set("keeps")
        self.assertIn("what was proved is kept, and the next one goes on from there", self.ended_behind_low())
        ran = self.run_streams("run", given=b"x", env={"STREAMS_PROVED": "1"})
        self.assertEqual((ran.returncode, ran.stdout), (0, b"x"), ran.stderr)
        self.assertIn(b"low is kept: 50 % of the work", ran.stderr)

    def test_with_a_kit_that_keeps_nothing_the_next_build_begins_anew(self):
        self.assertIn("keeps nothing, so the next one begins anew", self.ended_behind_low())
        ran = self.run_streams("run", given=b"x", env={"STREAMS_PROVED": "1"})
        self.assertEqual((ran.returncode, ran.stdout), (0, b"x"), ran.stderr)
        self.assertIn(b"low proved: 50 % of the work", ran.stderr)

    # Two runs of `rt ci`, where the kit keeps what one proved for the other.

    def set_two_runs(self):
        """Has crates over which such a kit has two runs: the first is ws_realm and ws_node."""
        self.set_crates("ws_realm: bytes", "ws_script: ws_realm", "ws_node: ws_realm", "streams may_wait=1: ws_node ws_script")
        self.set("keeps")

    def two_runs_under_way(self):
        """A build whose second run has begun, with the first held at ws_node and the second at ws_script."""
        before = len(self.calls("ci"))
        self.set("hold_ws_node")
        self.set("hold_ws_script")
        asked = subprocess.Popen([self.top / "streams", "run"], stdin=subprocess.DEVNULL, stdout=subprocess.PIPE, stderr=subprocess.PIPE, env={**self.env, "STREAMS_PROVED": "1"})
        self.until(lambda: len(self.calls("ci")) == before + 2, "the second run begins")
        return asked

    def let_go(self, *crates):
        for crate in crates:
            (self.stub / f"hold_{crate}").unlink()

    def told_of(self, said):
        """The crates that a build told of, with the percentage."""
        return re.findall(r"^streams: (\w+) (?:proved|is kept): (\d+) % of the work, ", said.decode(), re.MULTILINE)

    def test_two_runs_share_the_work(self):
        self.set_two_runs()
        asked = self.two_runs_under_way()
        self.let_go("ws_script")
        far = self.top / "crates/streams/out/build.progress"
        self.until(lambda: far.read_text().startswith("ws_script proved"), "the second run goes on beside the first")
        self.let_go("ws_node")
        _, said = asked.communicate(timeout=20)
        self.assertEqual(asked.returncode, 0, said)
        self.assertEqual(self.told_of(said), [("ws_realm", "25"), ("ws_script", "50"), ("ws_node", "75"), ("streams", "99")], said)
        self.assertEqual(
            self.calls("ci", "proved"),
            ["ci ws_realm ws_node", "proved ws_realm", "ci ws_realm ws_script ws_node streams", "proved ws_script", "proved ws_node", "proved streams"],
        )
        self.assertEqual(list(self.tmp.iterdir()), [])
        ran = self.run_streams("run", given=b"x")
        self.assertEqual((ran.returncode, ran.stdout, ran.stderr), (0, b"x", b""))

    def test_with_a_kit_that_keeps_nothing_there_is_one_run(self):
        self.set_two_runs()
        (self.stub / "keeps").unlink()
        self.built()
        self.assertEqual(self.calls("ci"), ["ci ws_realm ws_script ws_node streams"])

    def test_with_a_kit_beside_which_nothing_can_be_kept_there_is_one_run(self):
        as_nobody = {"user": NOBODY} if os.geteuid() == 0 else {}
        beside = self.folder / "beside"
        shutil.copytree(STUBS, beside / "kit/bin", ignore=shutil.ignore_patterns("__pycache__"))
        beside.chmod(0o555)
        self.addCleanup(beside.chmod, 0o755)
        self.set_two_runs()
        (self.stub / "keeps").chmod(0o666)
        (self.top / "crates/streams").chmod(0o777)
        env = {"PATH": f"{beside / 'kit/bin'}:{self.env['PATH']}", "STREAMS_PROVED": "1"}
        ran = self.run_streams("run", given=b"x", env=env, **as_nobody)
        self.assertEqual((ran.returncode, ran.stdout), (0, b"x"), ran.stderr)
        self.assertEqual(self.calls("ci"), ["ci ws_realm ws_script ws_node streams"])

    def test_a_run_that_fails_ends_the_other_one(self):
        self.set_two_runs()
        for fails in ("ws_node", "ws_script"):
            asked = self.two_runs_under_way()
            self.set("fails", fails)
            self.let_go(fails)
            out, said = asked.communicate(timeout=20)
            self.assertEqual((asked.returncode, out), (70, b""), said)
            self.assertEqual(re.findall(r"(\w+) NOT PROVED", said.decode()), [fails])
            self.assertEqual(said.count(b"a crate could not be proved"), 1, said)
            self.until(lambda: not self.living(), "a process is left")
            self.assertEqual(list(self.tmp.iterdir()), [])
            (self.stub / "fails").unlink()

    def test_a_run_that_fails_before_the_other_one_begins(self):
        self.set_two_runs()
        self.set("fails", "ws_realm")
        said = self.assert_ended(self.run_streams("run", given=b"x", env={"STREAMS_PROVED": "1"}), 70, "a crate could not be proved")
        self.assertEqual(re.findall(r"(\w+) NOT PROVED", said), ["ws_realm"])
        self.assertEqual(self.calls("ci"), ["ci ws_realm ws_node"])

    def test_two_runs_that_are_ended_leave_nothing_and_the_next_build_goes_on(self):
        self.set_two_runs()
        for number in (signal.SIGINT, signal.SIGTERM):
            asked = self.two_runs_under_way()
            asked.send_signal(number)
            _, said = asked.communicate(timeout=20)
            self.assertEqual(asked.returncode, 75, said)
            self.assertIn(b"what was proved is kept, and the next one goes on from there", said)
            self.until(lambda: not self.living(), "a process is left")
            self.assertEqual(list(self.tmp.iterdir()), [])
        self.let_go("ws_node", "ws_script")
        ran = self.run_streams("run", given=b"x", env={"STREAMS_PROVED": "1"})
        self.assertEqual((ran.returncode, ran.stdout), (0, b"x"), ran.stderr)
        self.assertIn(b"ws_realm is kept: 25 % of the work", ran.stderr)
        self.assertEqual(sorted(crate for crate, _ in self.told_of(ran.stderr)), ["streams", "ws_node", "ws_realm", "ws_script"])
        self.assertEqual(sorted(self.calls("proved")), ["proved streams", "proved ws_node", "proved ws_realm", "proved ws_script"])

    def test_the_first_of_two_runs_over_the_real_crates(self):
        sys.path.insert(0, str(ROOT / "launcher"))
        import sources

        first = sources.first_of_two(self.tmp)
        self.assertEqual(first.next_behind, "ws_realm")
        self.assertLessEqual({"ws_node", "ws_realm", "ws_grammar", "ws_plan"}, first.crates)
        self.assertLessEqual({"ws_script", "ws_runner", "ws_cli", "streams"}, sources.needed() - first.crates)
        for crate in first.crates:
            self.assertLessEqual({*sources.libraries()[crate]}, first.crates, crate)

    def test_how_the_time_that_is_left_counts_processors(self):
        sys.path.insert(0, str(ROOT / "launcher"))
        import progress

        one, both = {"ws_value": 19}, {"ws_value": 19, "ws_lanes": 19}
        self.assertEqual(progress.expected_ends(one, [one], 4), {"ws_value": 10})
        self.assertEqual(progress.expected_ends(both, [both], 4), {"ws_value": 19, "ws_lanes": 19})
        self.assertEqual(progress.expected_ends(both, [one, both], 4), {"ws_value": 10, "ws_lanes": 19})

    # A build that is killed or fails.

    def test_a_killed_build_leaves_no_process(self):
        self.set("ci_seconds", "60")
        asked = subprocess.Popen([self.top / "streams", "run"], stdin=subprocess.DEVNULL, stdout=subprocess.PIPE, stderr=subprocess.PIPE, env={**self.env, "STREAMS_PROVED": "1"})
        self.until(lambda: self.calls("ci"), "rt is at work")
        asked.kill()
        asked.communicate(timeout=20)
        self.until(lambda: not self.living(), "a process is left")
        # What it left of its copy goes with the next build.
        self.assertEqual(len(list(self.tmp.iterdir())), 1)
        self.set("ci_seconds", "0")
        self.built()
        self.assertEqual(list(self.tmp.iterdir()), [])
        self.assertEqual((self.top / "crates/streams/out/build.lock").read_text(), "")

    def test_a_build_that_goes_on_by_itself_can_be_ended(self):
        self.set("ci_seconds", "60")
        self.assertEqual(self.run_streams("run", given=b"x").stdout, b"x")
        self.until(lambda: self.calls("ci"), "rt is at work")
        lock = self.top / "crates/streams/out/build.lock"
        os.kill(int(lock.read_text()), signal.SIGTERM)
        self.until(lambda: not self.living(), "a process is left")
        self.assertEqual(lock.read_text(), "")
        self.assertIn("was ended before it was done", (self.top / "crates/streams/out/build.log").read_text())

    def test_ctrl_c_while_an_answer_is_made(self):
        self.set("ci_seconds", "3")
        self.set("no_answer", "60")
        asked = subprocess.Popen([self.top / "streams", "run"], stdin=subprocess.DEVNULL, stdout=subprocess.PIPE, stderr=subprocess.PIPE, env=self.env)
        self.until(lambda: self.calls("try"), "an answer is made")
        asked.send_signal(signal.SIGINT)
        _, said = asked.communicate(timeout=20)
        self.assertEqual(asked.returncode, -signal.SIGINT, said)
        self.assertNotIn(b"Traceback", said)

    def test_a_proof_that_fails(self):
        self.set("ci_status", "1")
        ran = self.run_streams("run", given=b"x", env={"STREAMS_PROVED": "1"})
        said = self.assert_ended(ran, 70, "a crate could not be proved")
        self.assertIn("what rt said", said)

    def test_a_proof_that_fails_behind_an_answer(self):
        self.set("ci_status", "1")
        for seconds in ("0", "1"):
            # the proof fails while somebody waits for it, or before
            self.set("no_answer", seconds)
            proofs = len(self.calls("ci"))
            said = self.assert_ended(self.run_streams("run", given=b"x"), 70, "a crate could not be proved")
            self.assertIn("build.log", said)
            self.assertEqual(len(self.calls("ci")), proofs + 1, "the proof was begun again")

    def test_an_answer_beside_a_proof_that_failed_says_so(self):
        self.set("ci_status", "1")
        self.set("try_seconds", "2")
        ran = self.run_streams("run", given=b"x")
        self.assertEqual((ran.returncode, ran.stdout), (0, b"x"), ran.stderr)
        self.assertIn(b"The proof ended without a program: a crate could not be proved", ran.stderr)

    def test_a_proof_that_fails_where_nobody_hears_of_it(self):
        self.set("ci_status", "1")
        ran = subprocess.run(["sh", "-c", 'exec "$0" run 2>&-', self.top / "streams"], input=b"x", capture_output=True, env={**self.env, "STREAMS_PROVED": "1"}, timeout=60)
        self.assertEqual((ran.returncode, ran.stdout, ran.stderr), (70, b"", b""))
        with open("/dev/full", "wb") as full:
            for env, status in (({**self.env, "STREAMS_PROVED": "1"}, 70), (self.env, 0)):
                ran = subprocess.run([self.top / "streams", "run"], input=b"x", stdout=subprocess.PIPE, stderr=full, env=env, timeout=60)
                self.assertEqual((ran.returncode, ran.stdout), (status, b"" if status else b"x"))

    # What is older than its sources, and what isn't.

    def test_what_an_editor_leaves_is_no_source(self):
        self.built()
        ahead = time.time() + 100
        for name in (".lib.rt.swp", ".#lib.rt", "#lib.rt#", "lib.rt~", "lib.rt.orig", "notes.txt"):
            path = self.top / "crates/low/src" / name
            path.write_text("x")
            os.utime(path, (ahead, ahead))
        # (and where all is summed, since one was touched)
        os.utime(self.top / "crates/low/src/lib.rt", (ahead, ahead))
        ran = self.run_streams("run", given=b"x")
        self.assertEqual((ran.returncode, ran.stdout, ran.stderr), (0, b"x", b""))
        self.assertEqual(len(self.calls("ci")), 1)

    def test_what_an_editor_leaves_beside_a_program_of_the_gate(self):
        self.built()
        # (the gate builds the program without the launcher, which so has no sums)
        (self.top / "crates/streams/out/sources.sum").unlink()
        time.sleep(0.05)
        (self.top / "crates/low/src/.lib.rt.swp").write_text("x")
        ran = self.run_streams("run", given=b"x")
        self.assertEqual((ran.returncode, ran.stdout, ran.stderr), (0, b"x", b""))
        self.assertEqual(len(self.calls("ci")), 1)

    def test_a_source_that_was_only_touched_or_is_not_the_programs(self):
        self.built()
        ahead = time.time() + 100
        os.utime(self.top / "crates/low/src/lib.rt", (ahead, ahead))
        (self.top / "crates/above/src/lib.rt").write_text("//! changed\n")
        ran = self.run_streams("run", given=b"x")
        self.assertEqual((ran.returncode, ran.stdout, ran.stderr), (0, b"x", b""))
        self.assertEqual(len(self.calls("ci")), 1)

    def test_a_source_that_changed(self):
        self.built()
        time.sleep(0.05)
        (self.top / "crates/low/src/lib.rt").write_text("//! changed\n")
        ran = self.run_streams("run", given=b"x", env={"STREAMS_PROVED": "1"})
        self.assertEqual((ran.returncode, ran.stdout), (0, b"x"))
        self.assertIn(b"older than its sources", ran.stderr)
        self.assertEqual(len(self.calls("ci")), 2)

    def test_a_source_that_is_gone(self):
        (self.top / "crates/low/src/more.rt").write_text("//! more\n")
        self.built()
        time.sleep(0.05)
        (self.top / "crates/low/src/more.rt").unlink()
        ran = self.run_streams("run", given=b"x", env={"STREAMS_PROVED": "1"})
        self.assertIn(b"older than its sources", ran.stderr)
        self.assertEqual(len(self.calls("ci")), 2)

    def test_a_program_that_was_built_otherwise_of_other_sources(self):
        self.built()
        program = self.top / "crates/streams/out/streams"
        program.write_text("#!/bin/sh\necho other\n")
        ahead = time.time() + 100
        os.utime(self.top / "crates/low/src/lib.rt", (ahead, ahead))
        ran = self.run_streams("run", given=b"x", env={"STREAMS_PROVED": "1"})
        self.assertEqual((ran.returncode, ran.stdout), (0, b"x"), ran.stderr)
        self.assertEqual(len(self.calls("ci")), 2)

    # Where it stands and what it needs.

    def test_through_a_link_in_a_folder_with_a_launcher_of_its_own(self):
        self.built()
        other = self.folder / "other"
        (other / "launcher").mkdir(parents=True)
        (other / "launcher/start.py").write_text("print('the other')\n")
        (other / "streams").symlink_to(self.top / "streams")
        ran = self.run_streams("run", given=b"x", program=other / "streams")
        self.assertEqual((ran.returncode, ran.stdout, ran.stderr), (0, b"x", b""))

    def test_a_folder_whose_name_begins_with_a_hyphen(self):
        self.built()
        self.top.rename(self.folder / "-x")
        ran = self.run_streams("run", given=b"x", program="-x/streams")
        self.assertEqual((ran.returncode, ran.stdout, ran.stderr), (0, b"x", b""))
        # (and where the launcher itself is called)
        (self.folder / "-x/crates/streams/out/streams").unlink()
        self.set("version", "none")
        self.assert_ended(self.run_streams("run", given=b"x", program="-x/streams"), 78, "^streams: rt is of none")

    def test_help(self):
        ran = self.run_streams("--help")
        self.assertEqual((ran.returncode, ran.stderr), (0, b""))
        for word in ("run FILE", "run --trace FILE", "check FILE", "gen N SEED FILE", "script", "README.md"):
            self.assertIn(word, ran.stdout.decode())
        self.assertEqual(self.run_streams("--help", "me").returncode, 2)

    def tools(self):
        """A folder with what the launcher calls, but rt."""
        tools = self.folder / "tools"
        tools.mkdir()
        for name in ("sh", "python3", "readlink", "dirname", "find", "head", "cat"):
            (tools / name).symlink_to(os.path.realpath(shutil.which(name)))
        return tools

    def test_without_rt(self):
        tools = self.tools()
        env = {"PATH": str(tools)}
        self.assert_ended(self.run_streams("run", env=env), 72, "^streams: the command rt, .* isn't found: .*\n$")
        (tools / "python3").unlink()
        self.assert_ended(self.run_streams("run", env=env), 72, "^streams: .* python3, .* isn't found: install it\n$")

    def test_an_rt_that_cannot_be_started(self):
        rt = self.tools() / "rt"
        rt.write_text("#!/nowhere/at/all\n")
        rt.chmod(0o755)
        self.assert_ended(self.run_streams("run", env={"PATH": str(rt.parent)}), 71, "^streams: rt can't be started: .*\n$")

    def test_without_rt_a_program_that_is_built_runs(self):
        self.built()
        env = {"PATH": str(self.tools())}
        self.assertEqual(self.run_streams("run", given=b"x", env=env).stdout, b"x")
        time.sleep(0.05)
        (self.top / "crates/low/src/lib.rt").write_text("//! changed\n")
        said = self.assert_ended(self.run_streams("run", env=env), 72, "isn't found")
        self.assertIn("older than its sources", said)

    def test_a_kit_of_another_name_with_the_same_logic_is_taken(self):
        self.assertNotIn(b"rt is of", self.run_streams("run", given=b"x").stderr)
        self.until(lambda: not self.living(), "the build goes on")
        (self.top / "crates/streams/out/streams").unlink()
        self.set("version", "rattle-kit-99 logic dac8208d650f15bf")
        ran = self.run_streams("run", given=b"x")
        self.assertEqual((ran.returncode, ran.stdout), (0, b"x"), ran.stderr)
        self.assertEqual(len(re.findall("^streams: rt is of rattle-kit-99, which has the same logic as .*$", ran.stderr.decode(), re.MULTILINE)), 1, ran.stderr)

    def test_a_kit_with_another_logic(self):
        for version in ("rattle-kit-99 logic 0", "rattle-kit-13f logic 0", "rattle-kit-13f"):
            self.set("version", version)
            self.assert_ended(self.run_streams("run"), 78, f"^streams: rt is of {version}, and this is proved with logic .*\n$")
        self.set("version")
        self.assert_ended(self.run_streams("run"), 78, "^streams: rt is of an unknown kit, and this is proved with logic .*\n$")
        self.assertEqual(self.run_streams("run", given=b"x", env={"STREAMS_KIT": "any"}).stdout, b"x")

    def test_folders_that_cannot_be_written(self):
        as_nobody = {"user": NOBODY} if os.geteuid() == 0 else {}
        os.chmod(self.top, 0o755)
        if not as_nobody:
            os.chmod(self.top / "crates/streams", 0o555)
        self.assert_ended(self.run_streams("run", **as_nobody), 73, "^streams: the program is built in .*/out, which can't be written: .*\n$")
        os.chmod(self.top / "crates/streams", 0o777)
        self.tmp.chmod(0o555)
        ran = self.run_streams("run", env={"STREAMS_PROVED": "1"}, **as_nobody)
        said = self.assert_ended(ran, 73, "set TMPDIR")
        self.assertEqual(len(re.findall("^streams: ", said, re.MULTILINE)), 2, said)

    def test_a_disk_without_room(self):
        sys.path.insert(0, str(ROOT / "launcher"))
        import build
        import exits

        full = mock.patch("shutil.disk_usage", return_value=mock.Mock(free=100 << 20))
        # (not in the folder in which a build of this checkout may be under way)
        here = mock.patch.dict(os.environ, {"TMPDIR": str(self.tmp)})
        with full, here, self.assertRaises(exits.Stop) as stopped, build.room():
            pass
        self.assertEqual(stopped.exception.status, 74)
        self.assertRegex(str(stopped.exception), "100 MiB free.*make room, or set TMPDIR")


if __name__ == "__main__":
    # Who is started in the background or by nohup ignores these, and so would all that is started here, which tests send them to. One that is caught is the child's again.
    for number in (signal.SIGINT, signal.SIGHUP):
        if signal.getsignal(number) is signal.SIG_IGN:
            signal.signal(number, lambda *_: None)
    unittest.main()
