"""Files of the repository that scripts of tests/ make."""
import os
import sys

ROOT = os.path.dirname(os.path.dirname(os.path.abspath(__file__)))


def write(script, files):
    """Writes files, by their paths from the repository's root. With --check among the words nothing is written, and the
    run ends with an error where a file is not what would be written. Tells whether they were written."""
    check = "--check" in sys.argv
    for path, content in files.items():
        place = os.path.join(ROOT, path)
        if check:
            with open(place, "rb") as f:
                if f.read() != content:
                    sys.exit("%s is not what tests/%s writes" % (path, script))
        else:
            os.makedirs(os.path.dirname(place), exist_ok=True)
            with open(place, "wb") as f:
                f.write(content)
    return not check
