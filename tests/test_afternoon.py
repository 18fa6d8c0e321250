"""README's afternoon, typed line by line: every line that it prints is README's."""

import os
import re
import signal
import subprocess
import tempfile
import time
import unittest
from pathlib import Path

REPOSITORY = Path(__file__).resolve().parent.parent
# What ./prove has built: make takes it as it is, whatever its age, and proves nothing.
BUILT = [
    "target/staticlib/libabi.a",
    "target/staticlib/libclient_abi.a",
    "target/bin/bill",
    "target/bin/audit_program",
]
# What the afternoon has, in this order.
NEEDED = [
    "make --silent install ",
    "cargo build ",
    "razidkot roster make ",
    "razidkot list make ",
    "unix-socket --capture ",
    "until grep -qs listening ",
    "openssl genpkey ",
    "razidkot ask keys.socket import ",
    "razidkot ask keys.socket export ",
    "openssl dgst -sha256 -sign ",
    "razidkot ask keys.socket verify ",
    "razidkot ask keys.socket verify ",
    "razidkot ask keys.socket destroy ",
    "razidkot ask keys.socket export ",
    "razidkot ask keys.socket export release-2027 ",
    "razidkot ask keys.socket destroy release-2027 ",
    "kill $!",
    "razidkot-bill ",
    "unix-socket --journal ",
    "razidkot ask keys.socket import ",
    "kill -KILL $!",
    "unix-socket --journal ",
    "razidkot ask keys.socket export ",
    "razidkot journal show ",
    "kill -TERM $!",
    "razidkot-audit ",
    "printf ",
    "razidkot-audit ",
]
LEAST_STEPS = 51
MARK = "--- the status is"
# Minutes, for a machine that has other work; the afternoon takes seconds.
LONGEST = 240


class Refused(Exception):
    """A transcript that is not there, or whose commands print something else."""


def steps_of(text):
    """Each command of the one transcript in a text, with the lines that it prints."""
    blocks = re.findall(r"^```console\n(.*?)^```$", text, re.DOTALL | re.MULTILINE)
    if len(blocks) != 1:
        raise Refused(f"{len(blocks)} transcripts")
    steps = []
    for line in blocks[0].splitlines():
        if line.startswith("$ "):
            steps.append((line[2:], []))
        elif steps:
            steps[-1][1].append(line)
        else:
            raise Refused(f"printed before any command: {line}")
    return steps


def check_needed(steps):
    """All that the afternoon has to have is there, in order."""
    commands = iter(command for command, _ in steps)
    for needed in NEEDED:
        if not any(command.startswith(needed) for command in commands):
            raise Refused(f"no step, or not in its place: {needed}")
    if len(steps) < LEAST_STEPS:
        raise Refused(f"{len(steps)} steps")


def script_of(commands):
    """The commands, and behind each a line with its status, which is kept."""
    old = " ".join(f"-o {name}" for name in BUILT)
    lines = [f'make() {{ command make {old} "$@"; }}']
    for command in commands:
        lines += [command, f'status=$?; echo "{MARK} $status"; (exit $status)']
    return "\n".join(lines)


def environment_in(scratch):
    """Where all of it happens in the scratch folder, whatever a surrounding make or cargo says."""
    environment = dict(os.environ, TMPDIR=str(scratch), CARGO_NET_OFFLINE="true", LC_ALL="C")
    for name in ["RAZIDKOT_LIB_DIR", "CARGO_TARGET_DIR", "MAKEFLAGS", "MAKELEVEL", "MFLAGS"]:
        environment.pop(name, None)
    return environment


def typed(commands, scratch, longest=LONGEST):
    """What each command prints, errors too, and its status. Whatever still runs then is killed."""
    shell = subprocess.Popen(
        ["bash", "-c", script_of(commands)],
        cwd=REPOSITORY,
        env=environment_in(scratch),
        stdin=subprocess.DEVNULL,
        stdout=subprocess.PIPE,
        stderr=subprocess.STDOUT,
        text=True,
        start_new_session=True,
    )
    try:
        out, _ = shell.communicate(timeout=longest)
    except subprocess.TimeoutExpired:
        kill(shell)
        out, _ = shell.communicate()
        raise Refused(f"not over after {longest} s:\n{out}") from None
    finally:
        kill(shell)
    parts = re.split(rf"^{MARK} (\d+)\n", out, flags=re.MULTILINE)
    said = [part.splitlines() for part in parts[0:-1:2]]
    return list(zip(said, map(int, parts[1::2])))


def kill(shell):
    """Kills the shell and the server that it may have left: they are a group of their own."""
    try:
        os.killpg(shell.pid, signal.SIGKILL)
    except ProcessLookupError:
        pass


def check_typed(steps, done):
    """Every line is as it stands; a status is 0 unless the next line shows it."""
    if len(done) != len(steps):
        raise Refused(f"{len(done)} of {len(steps)} steps were done")
    behind = [command for command, _ in steps[1:]] + [""]
    for (command, expected), (printed, status), following in zip(steps, done, behind):
        if printed != expected:
            raise Refused("\n".join([f"$ {command}", "prints", *printed, "and not", *expected]))
        if status != 0 and following != "echo $?":
            raise Refused(f"$ {command}\nstatus {status}")


class Afternoon(unittest.TestCase):
    def setUp(self):
        folder = tempfile.TemporaryDirectory()
        self.addCleanup(folder.cleanup)
        self.scratch = Path(folder.name)

    def played(self, text, longest=LONGEST):
        steps = steps_of(text)
        check_typed(steps, typed([command for command, _ in steps], self.scratch, longest))


class Readme(Afternoon):
    def setUp(self):
        super().setUp()
        self.text = (REPOSITORY / "README.md").read_text()

    def test_it_goes_as_it_stands(self):
        check_needed(steps_of(self.text))
        self.played(self.text)

    def test_the_server_and_the_proved_program_print_one_bill(self):
        printed = dict(steps_of(self.text))
        bill = printed["razidkot-bill keys.roster keys.stream keys.list"]
        self.assertTrue(bill[0].startswith("taken "), bill)
        self.assertEqual(printed["kill $! && wait $!"], bill)

    def test_the_key_is_there_after_the_server_was_killed(self):
        commands = [command for command, _ in steps_of(self.text)]
        printed = dict(steps_of(self.text))
        self.assertEqual(printed["cmp again.der key.der && echo the same key"], ["the same key"])
        killed = commands.index("kill -KILL $!; wait $! 2>killed.log")
        between = commands[killed : commands.index("cmp again.der key.der && echo the same key")]
        self.assertFalse([command for command in between if " import " in command])

    def test_a_signature_is_good_and_then_bad(self):
        steps = steps_of(self.text)
        said = [printed for command, printed in steps if " verify " in command]
        bad = "razidkot: keys.socket: bad signature: PsaErrorInvalidSignature (status 1149)"
        self.assertEqual(said, [["good signature"], [bad]])
        self.assertIn(("echo $?", ["3"]), steps)

    def test_any_step_that_is_gone_is_missed(self):
        steps = steps_of(self.text)
        for needed in NEEDED:
            with self.subTest(needed):
                left = [step for step in steps if not step[0].startswith(needed)]
                self.assertRaises(Refused, check_needed, left)
        self.assertRaises(Refused, check_needed, steps[: LEAST_STEPS - 1])


def ends_within(seconds, process):
    """Whether it is gone by then. One that was killed stands there until somebody waits for it."""
    status = Path("/proc") / process / "status"
    end = time.monotonic() + seconds
    while time.monotonic() < end:
        try:
            if "\nState:\tZ" in status.read_text():
                return True
        except (FileNotFoundError, ProcessLookupError):
            return True
        time.sleep(0.05)
    return False


class OtherTranscripts(Afternoon):
    """Each is refused, and the first of them alone is not."""

    def refused(self, block, longest=LONGEST):
        with self.assertRaises(Refused) as caught:
            self.played(f"```console\n{block}\n```\n", longest)
        return str(caught.exception)

    def test_one_that_goes_as_it_stands(self):
        self.played("```console\n$ echo a; echo b\na\nb\n$ false\n$ echo $?\n1\n```\n")

    def test_none_or_two(self):
        block = "```console\n$ true\n```\n"
        for text in ["", "```sh\ntrue\n```\n", block + block]:
            self.assertRaises(Refused, steps_of, text)

    def test_a_line_that_is_another_missing_or_too_many(self):
        for printed in ["a", "a\nc", "a\nb\nc", ""]:
            self.assertIn("and not", self.refused(f"$ printf 'a\\nb\\n'\n{printed}".rstrip()))

    def test_a_status_that_is_not_shown(self):
        self.assertIn("status 1", self.refused("$ false\n$ true"))

    def test_a_program_that_is_missing(self):
        self.assertIn("not found", self.refused("$ no-such-program-here"))

    def test_a_shell_that_ends_early(self):
        self.assertIn("1 of 3 steps", self.refused("$ true\n$ exit 0\n$ true"))

    def test_what_is_left_running_is_killed(self):
        left = self.scratch / "left"
        reason = self.refused(f"$ echo so far; sleep 600 & echo $! >{left}", longest=1)
        self.assertTrue(reason.startswith("not over after 1 s:\nso far\n"), reason)
        self.assertTrue(ends_within(10, left.read_text().strip()))


if __name__ == "__main__":
    unittest.main()
