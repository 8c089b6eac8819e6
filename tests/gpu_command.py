"""Types commands of gpu, good and wrong ones, and holds what they print and how they end to the papers and to the model.

    python3 tests/gpu_command.py [FOLDER]      FOLDER is the release's, by default the one in target/release
"""

import sys
import tempfile
from pathlib import Path

import gpu_explained
import gpu_files
import gpu_shown
import gpu_words
from gpu_typed import ROOT, Typist


def main():
    version = (ROOT / "VERSION").read_text().strip()
    home = Path(sys.argv[1] if len(sys.argv) > 1 else ROOT / "target" / "release" / f"gpu-{version}").resolve()
    with tempfile.TemporaryDirectory() as folder:
        typist = Typist(home, Path(folder))
        for part in (gpu_files, gpu_words, gpu_shown, gpu_explained):
            for test in part.TESTS:
                test(typist)
    print(f"gpu: {typist.count} commands do what they should, or say why not")


if __name__ == "__main__":
    main()
