"""The options of a test that makes files at random: --files N and --seed N."""
import argparse
import random
import sys


def take_options(files):
    """How many files are made, and the seed, which is a fresh one if none is given, and is printed. unittest gets the other arguments."""
    parser = argparse.ArgumentParser(add_help=False)
    parser.add_argument("--files", type=int, default=files)
    parser.add_argument("--seed", type=int, default=random.SystemRandom().randrange(2 ** 32))
    options, sys.argv[1:] = parser.parse_known_args()
    print("--files %d --seed %d" % (options.files, options.seed), flush=True)
    return options.files, options.seed
