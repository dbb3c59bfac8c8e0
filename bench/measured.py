"""What measurements of csa share: cities, the words of queries over them, and the lines that commands print."""
import os
import subprocess
import sys

HERE = os.path.dirname(os.path.abspath(__file__))
sys.dont_write_bytecode = True
sys.path[:0] = [os.path.join(HERE, "../clients/python"), os.path.join(HERE, "../.ci")]
import served
from sample import clock

CRITERIA = ("arrival", "arrival+trips", "arrival+trips+walk")


def run(*words):
    """The lines that a command prints."""
    ran = subprocess.run(words, stdout=subprocess.PIPE, text=True)
    if ran.returncode:
        sys.exit(f"{sys.argv[0]}: {' '.join(words)} ended with status {ran.returncode}")
    return ran.stdout.splitlines()


def window(after, until, by, criterion):
    """The words of a query but for its stops."""
    return ["--after", after, "--until", until, "--by", by, "--criterion", criterion]


def stop_ids(csa, image):
    return [line.split(" ", 1)[1] for line in run(csa, "stops", image)]


def build_city(csa, side, folder):
    """Makes a feed of bench/make_feed.py, and returns the path of its image."""
    feed, image = os.path.join(folder, f"feed-{side}"), os.path.join(folder, f"{side}.csa")
    run(os.path.join(HERE, "make_feed.py"), str(side), feed)
    print(*run(csa, "build", feed, image, *served.PLAN))
    return image
