"""`--plan FILE`: which file is read, that it is read once, and what can't be read."""

import os
import shutil
import subprocess
import threading
import time

from process import DIAL, DIALLED, EXAMPLE_PLAN, ProgramTest, fault, program, run, start

# One register, at another place than those of the example plan, so that the record tells which plan was read.
PLAN = 'version = 1\ngroups = ["REG register 999"]\nnumbers = []\ncodes = []\nfaults = []\n'
BY_PLAN = b"0,1,0,D,3041,-,DIALTONE,1,3041-0-999,-\nPATHS,1\nCLOSED,4\n"
COMMANDS = ("replay", "walk", "look", "live", "audit", "draw", "page")
NOBODY = 65534
# The numbers of open and openat among the calls of Linux on x86-64.
OPENS = ("2", "257")


def unreadable(name, reason):
    return fault("DEVICE") + f"crossbar5: cannot read the plan {name}: {reason}\n".encode()


def large_plan():
    """3,000 numbers with ten lines each, the most that a plan may have. Each line is real, so it is a plan."""
    lines = [f"{k // 300}{k // 30 % 10}{k % 30 // 5}{k % 5}" for k in range(3000)]
    numbers = ",\n".join(f'"{k:04} {" ".join(lines[(k + 7 * j) % 3000] for j in range(10))}"' for k in range(3000))
    return f'version = 2\ngroups = ["REG register 999"]\ncodes = []\nfaults = []\nnumbers = [\n{numbers}\n]\n'


def wait_for_open(test, running):
    """Waits until a process waits in a call that opens a file."""
    deadline = time.monotonic() + 20
    while time.monotonic() < deadline:
        try:
            with open(f"/proc/{running.pid}/syscall", encoding="ascii") as it:
                if it.read().split(" ")[0] in OPENS:
                    return
        except (FileNotFoundError, PermissionError) as error:
            test.skipTest(f"the system doesn't tell what a process waits for: {error}")
        time.sleep(0.01)
    test.fail("the program didn't open the pipe")


class PlanFile(ProgramTest):
    def test_file_that_is_named(self):
        """Neither the example plan nor a file of a usual name is read in its place."""
        for name in ("office.toml", "plan.toml", "example.toml"):
            self.write(name, EXAMPLE_PLAN)
        for name in ("town.toml", "a", "-", "town with a blank.toml", "sub/town.toml", "./town.toml"):
            os.makedirs(os.path.dirname(self.path(name)), exist_ok=True)
            self.write(name, PLAN)
            with self.subTest(name):
                self.expect(["replay", "--plan", name], 0, BY_PLAN, data=DIAL)
                self.expect(["replay", f"--plan={name}"], 0, BY_PLAN, data=DIAL)
        with self.subTest("a whole path"):
            self.expect(["replay", "--plan", self.write("whole.toml", PLAN)], 0, BY_PLAN, data=DIAL)

    def test_every_command(self):
        """Each command reads the file: a plan of no bytes is refused as P2."""
        self.write("town.toml", "")
        for command in COMMANDS:
            with self.subTest(command):
                ended = self.run_here(command, "--plan", "town.toml")
                self.assertEqual(ended.status, 3)
                self.assertIn(fault("P2"), ended.output + ended.errors)

    def test_absent(self):
        reason = "No such file or directory (os error 2)"
        for command in COMMANDS:
            with self.subTest(command):
                self.expect([command, "--plan", "none.toml"], 6, errors=unreadable("none.toml", reason), data=DIAL)

    def test_folder(self):
        errors = unreadable("folder", "Is a directory (os error 21)")
        os.mkdir(self.path("folder"))
        for command in COMMANDS:
            with self.subTest(command):
                self.expect([command, "--plan", "folder"], 6, errors=errors, data=DIAL)

    def test_below_a_file(self):
        self.write("file", PLAN)
        self.expect(["replay", "--plan", "file/town.toml"], 6,
                    errors=unreadable("file/town.toml", "Not a directory (os error 20)"), data=DIAL)

    def test_unreadable(self):
        """A file that the user may not read; as root by the user nobody, with a copy of the program in reach."""
        os.chmod(self.write("town.toml", PLAN), 0)
        os.chmod(self.folder, 0o755)
        how = {}
        if os.geteuid() == 0:
            how = {"user": NOBODY, "executable": shutil.copy(program(), self.path("program"))}
            os.chmod(how["executable"], 0o755)
        self.expect(["replay", "--plan", "town.toml"], 6,
                    errors=unreadable("town.toml", "Permission denied (os error 13)"), data=DIAL, **how)
        os.chmod(self.path("town.toml"), 0o444)
        self.expect(["replay", "--plan", "town.toml"], 0, BY_PLAN, data=DIAL, **how)

    def test_large_plan(self):
        plan = large_plan()
        self.assertGreater(len(plan), 170_000)
        self.write("large.toml", plan)
        self.expect(["replay", "--plan", "large.toml"], 0, BY_PLAN, data=DIAL)

    def test_long_path(self):
        """Paths of 65, 300 and 4,095 bytes; the last is the longest that Linux takes."""
        for length in (65, 300, 4095):
            path = self.folder + "/" + "./" * ((length - len(self.folder) - 2) // 2)
            path += "t" * (length - len(path))
            with open(path, "w", encoding="utf-8") as it:
                it.write(PLAN)
            with self.subTest(length):
                self.assertEqual(len(path), length)
                self.expect(["replay", "--plan", path], 0, BY_PLAN, data=DIAL)

    def test_long_path_of_no_file(self):
        path = "n" * 200 + "/" + "o" * 99
        self.expect(["replay", "--plan", path], 6,
                    errors=unreadable(path, "No such file or directory (os error 2)"), data=DIAL)

    def test_fifo(self):
        os.mkfifo(self.path("fifo"))

        def feed():
            with open(self.path("fifo"), "w", encoding="utf-8") as it:
                it.write(PLAN)

        feeder = threading.Thread(target=feed, daemon=True)
        feeder.start()
        self.expect(["replay", "--plan", "fifo"], 0, BY_PLAN, data=DIAL, timeout=20)
        feeder.join(20)

    def test_pipe_of_the_shell(self):
        """`--plan <(..)`, as bash writes it."""
        self.write("town.toml", PLAN)
        words = ["bash", "-c", '"$0" replay --plan <(cat town.toml)', program()]
        ran = subprocess.run(words, cwd=self.folder, input=DIAL, capture_output=True, timeout=20)
        self.assertEqual((ran.returncode, ran.stdout, ran.stderr), (0, BY_PLAN, b""))

    def test_standard_input(self):
        """A plan on standard input: the plan is read to its end, and nothing is left for the rows."""
        self.expect(["replay", "--plan", "/dev/stdin"], 0, b"PATHS,0\nCLOSED,0\n", data=PLAN.encode())

    def test_device_of_no_bytes(self):
        ended = run("replay", "--plan", "/dev/null", data=DIAL)
        self.assertEqual((ended.status, ended.output), (3, fault("P2")))

    def test_opened_once(self):
        """A pipe is opened once. While the program waits for its writer another plan gets the pipe's name, so whatever
        opens it again reads that."""
        for command in COMMANDS:
            os.mkfifo(self.path("town.toml"))
            with self.subTest(command), start(command, "--plan", "town.toml", cwd=self.folder, stdin=subprocess.DEVNULL,
                                              stdout=subprocess.PIPE, stderr=subprocess.PIPE) as running:
                self.addCleanup(running.kill)
                wait_for_open(self, running)
                os.rename(self.path("town.toml"), self.path("pipe"))
                self.write("town.toml", "version = 3\n")
                self.write("pipe", PLAN)
                output, errors = running.communicate(timeout=20)
                self.assertEqual((running.returncode, errors), (0, b""), output)
            os.unlink(self.path("town.toml"))
            os.unlink(self.path("pipe"))

    def test_other_files_are_left_alone(self):
        """Beside the plan's file the program opens none for writing: the folder stays as it was."""
        self.write("town.toml", PLAN)
        before = sorted(os.listdir(self.folder))
        for command in COMMANDS:
            self.run_here(command, "--plan", "town.toml")
        self.assertEqual(sorted(os.listdir(self.folder)), before)
        with open(self.path("town.toml"), encoding="utf-8") as it:
            self.assertEqual(it.read(), PLAN)

    def test_no_file_is_needed(self):
        """Without --plan no file of the folder is read."""
        self.write("office.toml", "version = 3\n")
        self.expect(["replay"], 0, DIALLED, data=DIAL)
