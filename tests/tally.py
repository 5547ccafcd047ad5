"""What passed and what failed in one test, and its last line 'N passed, M failed'."""
import sys

counts = {True: 0, False: 0}


def tell(good, text):
    counts[bool(good)] += 1
    if not good:
        print("FAIL: " + text)


def finish():
    print(f"{counts[True]} passed, {counts[False]} failed")
    sys.exit(1 if counts[False] else 0)
