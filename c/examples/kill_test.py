"""Kills box again and again, and checks after each kill what the log holds. Run by kill-test, which builds the programs.

Line x is logged under LSN x, for lines go to the end of the log and leave it only at its front. Where each line lies is
known too: it goes to the write extent when it fits, and otherwise to a new one, before which the first extent is dropped
when all S slots are listed. So after a kill there are few images that are right, and every other one is a failure.
"""

import argparse
import random
import signal
import subprocess
import sys
import tempfile
import time
from pathlib import Path

E, S = 128, 4
LONGEST = E - 14
MOST_FILLING = LONGEST - 12
LINES_A_RUN = 6000

# Every so many runs begin without a file, so that kills fall into its making too.
RUNS_A_FILE = 10


def line(x):
    """Line x: its number, then filling of a length that follows no pattern."""
    scattered = x * 2654435761 % 2**32
    filling = f"{scattered:08x}" * (LONGEST // 8)
    return f"{x} {filling[: scattered % MOST_FILLING]}".encode()


class Expected:
    """The extents as they must lie when the lines below `next` are logged."""

    def __init__(self):
        self.starts = [1]
        self.place = 5
        self.next = 1
        self.rolls = 0
        self.drops = 0

    def rolls_next(self):
        return self.place + len(line(self.next)) + 9 > E

    def drops_next(self):
        return self.rolls_next() and len(self.starts) == S

    def drop(self):
        self.starts.pop(0)
        self.drops += 1

    def log_next(self):
        if self.drops_next():
            self.drop()
        if self.rolls_next():
            self.starts.append(self.next)
            self.place = 5
            self.rolls += 1
        self.place += len(line(self.next)) + 9
        self.next += 1

    def extents(self):
        ends = [*self.starts[1:], self.next]
        return list(zip(self.starts, ends))


# As ./run has built it, without proving it again.
LOGLIST = ["crates/loglist/out/loglist"]


class Failure(Exception):
    pass


def expect(is_so, what):
    if not is_so:
        raise Failure(what)


def output(command, image):
    done = subprocess.run(command, input=image, capture_output=True)
    said = done.stderr.decode().strip()
    expect(done.returncode == 0, f"{command[-1]} ended with {done.returncode}: {said}")
    return done.stdout


class Test:
    def __init__(self, arguments, folder):
        self.box = ["target/c/box"]
        self.live = ["target/c/live"]
        self.random = random.Random(arguments.seed)
        self.file = folder / "log"
        self.sent = folder / "sent"
        self.echoed = folder / "echoed"
        self.expected = Expected()
        self.kills = self.ended = self.in_flight = self.acknowledged = 0
        self.rolls = self.drops = self.files = self.between = 0

    def moment(self):
        """Mostly in start-up and recovery, or deep in the run."""
        return self.random.choice([0, self.random.uniform(0, self.whole / 10), self.random.uniform(0, self.whole)])

    def fresh_file(self):
        self.rolls += self.expected.rolls
        self.drops += self.expected.drops
        self.files += 1
        self.expected = Expected()
        self.file.unlink(missing_ok=True)

    def start(self, sent, echoed):
        return subprocess.Popen([*self.box, self.file, str(E), str(S)], stdin=sent, stdout=echoed)

    def send_from(self, first):
        self.sent.write_bytes(b"".join(line(x) + b"\n" for x in range(first, first + LINES_A_RUN)))

    def time_whole_run(self):
        """How long a run takes that nothing kills."""
        self.send_from(1)
        begun = time.monotonic()
        with open(self.sent, "rb") as sent, open(self.echoed, "wb") as echoed:
            expect(self.start(sent, echoed).wait() == 0, "box does not end with 0")
        self.whole = time.monotonic() - begun

    def run_and_kill(self):
        self.send_from(self.expected.next)
        with open(self.sent, "rb") as sent, open(self.echoed, "wb") as echoed:
            box = self.start(sent, echoed)
            time.sleep(self.moment())
            box.kill()
            status = box.wait()
        expect(status in (0, -signal.SIGKILL), f"box ended with {status}")
        self.kills += status != 0
        self.ended += status == 0

    def take_echoes(self):
        """Every whole line that came back is an acknowledgement, and they come back in order."""
        echoes = self.echoed.read_bytes().split(b"\n")[:-1]
        for echo in echoes:
            expect(echo == line(self.expected.next), f"echo of line {self.expected.next} is {echo}")
            self.expected.log_next()
        self.acknowledged += len(echoes)

    def listed(self, image):
        """Head and tail, and the start and end of each extent, as loglist prints them."""
        words = [row.split() for row in output(LOGLIST, image).decode().splitlines()]
        expect(words[0][0] == "log", f"loglist printed {words[0]}")
        head, tail = int(words[0][1]), int(words[0][2])
        return head, tail, [(int(start), int(end)) for _, _, start, end in words[1:]]

    def check_extents(self, head, tail, extents):
        """The line in flight may be logged; and when the next one has to drop, that may be done."""
        if tail == self.expected.next + 1:
            self.expected.log_next()
            self.in_flight += 1
        if extents != self.expected.extents() and self.expected.drops_next():
            self.expected.drop()
            self.between += 1
        expect(extents == self.expected.extents(), f"extents {extents}, expected {self.expected.extents()}")
        expect(head == self.expected.starts[0], f"head {head}, expected {self.expected.starts[0]}")

    def check(self):
        self.take_echoes()
        if not self.file.exists():
            expect(self.expected.next == 1, "the file is gone")
            return
        image = self.file.read_bytes()
        head, tail, extents = self.listed(image)
        self.check_extents(head, tail, extents)
        records = b"".join(b"%d %s\n" % (x, line(x)) for x in range(head, tail))
        expect(output(self.live, image) == records, f"the live records are not lines {head} to {tail - 1}")

    def keep_image(self):
        if not self.file.exists():
            return "there is no file"
        kept = Path("target/c/failed")
        kept.write_bytes(self.file.read_bytes())
        return f"the image is in {kept}"

    def go(self, kills):
        self.time_whole_run()
        run = 0
        while self.kills < kills:
            if run % RUNS_A_FILE == 0:
                self.fresh_file()
            run += 1
            self.run_and_kill()
            self.check()
        self.rolls += self.expected.rolls
        self.drops += self.expected.drops


def main():
    parser = argparse.ArgumentParser()
    parser.add_argument("--kills", type=int, default=300)
    parser.add_argument("--seed", type=int, default=1)
    arguments = parser.parse_args()
    # A file in memory takes far more lines before a kill than one on a disk.
    memory = Path("/dev/shm")
    with tempfile.TemporaryDirectory(dir=memory if memory.is_dir() else None) as folder:
        test = Test(arguments, Path(folder))
        try:
            test.go(arguments.kills)
        except Failure as failure:
            kept = test.keep_image()
            sys.exit(f"kill-test: after {test.kills} kills: {failure}; {kept}")
    print(
        f"kill-test: {test.kills} kills, {test.files} files, {test.acknowledged} lines acknowledged, {test.rolls} rolls,"
        f" {test.drops} drops ({test.between} cut off behind the drop), {test.in_flight} in flight kept, lost 0, twice 0"
    )


if __name__ == "__main__":
    main()
