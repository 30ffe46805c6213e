"""Holds the stored script and lines of a program to what stored.py writes: run_stored.py FOLDER."""

import os
import subprocess
import sys
import tempfile

HERE = os.path.dirname(os.path.abspath(__file__))


def main():
    folder = sys.argv[1]
    passed = failed = 0
    with tempfile.TemporaryDirectory() as fresh:
        subprocess.run([sys.executable, os.path.join(HERE, "stored.py"), fresh], check=True, stdout=subprocess.DEVNULL)
        for name in ("stdin", "stdout"):
            with open(os.path.join(folder, name), "rb") as stored, open(os.path.join(fresh, name), "rb") as made:
                if stored.read() == made.read():
                    passed += 1
                else:
                    failed += 1
                    print("%s/%s is not what stored.py writes" % (folder, name))
    print("%d passed, %d failed" % (passed, failed))
    return 1 if failed else 0


if __name__ == "__main__":
    sys.exit(main())
