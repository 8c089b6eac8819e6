"""gpu's words and statuses: what is refused by gpu and by make, how each command ends, and a display that goes on."""

import re
import signal
import subprocess
import sys
import time
import zlib

from gpu_typed import EXAMPLES, ROOT


def stray_words(test):
    """A word that means nothing is refused, by gpu and by make; what was run is named."""
    test.gpu("run", EXAMPLES / "ramp.words", "x").expect(2, "'x' is not understood", out="")
    test.gpu("run", "image=x").expect(2, "no such file", out="")
    test.gpu("rnu").expect(2, "is it 'run'?", out="")
    test.gpu(EXAMPLES / "ramp.words").expect(2, "is no verb", "run ", out="")
    test.gpu("check", EXAMPLES / "ramp.words", "--length", "x").expect(2, "'x' is not a number of bytes", out="")
    test.gpu("show", EXAMPLES / "ramp.words", "--trace", "0").expect(2, "from 1 to 100,000", out="")
    test.gpu("kiosk", "--frames", "5", "--endless").expect(2, "exclude each other", out="")
    test.gpu("check", "--Length", "5").expect(2, "is it --length?", out="")
    test.gpu("--version", "x").expect(2, "'x' is not understood", out="")
    for words, part in ((["run", "examples/ramp.words"], "'examples/ramp.words' is not understood"),
                        (["run", "image=examples/ramp.words"], "'image' is no setting"),
                        (["loadcheck", "Length=4"], "'Length' is no setting"),
                        (["table", "IMAGE=x"], "'IMAGE' is no setting of table"),
                        (["run", "FRAMES=3"], "'FRAMES' is no setting of run"),
                        (["uninstall", "prefix=/nowhere"], "'prefix' is no setting of uninstall"),
                        (["run", "IMAGE=a$(shell echo b)$c \"'.words"], "gpu run: a$(shell echo b)$c \"'.words: there is no")):
        test.make(*words).expect(2, part, out="")


def statuses(test):
    """0, 1 and 2, by the answer of the model."""
    for path in sorted(EXAMPLES.glob("*.words")):
        wanted = path.with_suffix(".card").read_text()
        answer = int(re.match(r"answer=(\d+)", wanted)[1])
        test.gpu("run", path).expect(1 if answer > 1 else 0, out=wanted)
    # What can not be written is told; a reader who has gone is not.
    for line, said in (("$gpu run >/dev/full", "can not be written"), ("$gpu run - <&-", "standard input is closed"),
                       ("{ sleep 0.5; $gpu help; } | true; exit ${PIPESTATUS[0]}", "")):
        done = test.typed(["bash", "-c", f"gpu={test.home}/gpu; {line}"], test.folder).expect(2, said)
        assert said or not done.err, done.err
    test.gpu("help").expect(0, "in good order")
    test.gpu().expect(0, "gpu run")
    for verb in ("run", "check", "explain", "show", "kiosk", "table", "log", "image"):
        test.gpu("help", verb).expect(0, f"usage: gpu {verb}")
        test.gpu(verb, "--help").expect(0, f"usage: gpu {verb}")
        test.gpu(verb, "x", "--nonsense").expect(2, "--nonsense", f"help {verb}", out="")
    test.gpu("--version").expect(0, (ROOT / "VERSION").read_text().strip())


def goes_on(test):
    """A display without an end, as the guide starts it: a line for each frame, until a person ends it; then the day's sum."""
    log = test.folder / "firing.log"
    words = ["kiosk", EXAMPLES / "drum.words", "--steps", "247", "--picture", "F03800:16x1", "--endless", "--fps", "50",
             "--log", log]
    process = subprocess.Popen([str(test.home / "gpu"), *map(str, words)], stdout=subprocess.PIPE, stderr=subprocess.STDOUT)
    test.count += 1
    deadline = time.monotonic() + 30
    while not log.exists() or log.read_text().count("\n") < 5:
        if time.monotonic() > deadline:
            sys.exit("gpu: kiosk writes no log")
        time.sleep(0.02)
    # The kiosk has taken the command's place, so the signal is its own.
    process.send_signal(signal.SIGTERM)
    told = process.communicate(timeout=30)[0].decode()
    lines = log.read_text().splitlines()
    frames = [dict(field.split("=", 1) for field in line.split("\t")[1:]) for line in lines if "ended=" not in line]
    if process.returncode != 0 or "A person ended it." not in told:
        sys.exit(f"gpu: kiosk ended with {process.returncode} on a signal, and said\n{told}")
    for number, fields in enumerate(frames, 1):
        assert (int(fields["frame"]), int(fields["steps"]), int(fields["total"])) == (number, 247, 247 * number), fields
        assert fields["image"] == "drum.words" and fields["crc32"] == f"{zlib.crc32(test.image(EXAMPLES / 'drum.words')):08X}"
    test.gpu("log", log).expect(0, "drum.words", f"{len(frames)} frames")
    assert list(test.folder.glob("firing.log*.svg")), "gpu log draws no picture"


TESTS = [stray_words, statuses, goes_on]
