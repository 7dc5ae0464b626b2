"""What the measurements in Python share: the words that they are called with, and the building of what they run. It measures
nothing itself."""
import argparse
import os
import shutil
import subprocess
import sys

TOP = os.path.dirname(os.path.dirname(os.path.realpath(__file__)))


def words(doc, *arguments):
    """The words behind the program's name, where each argument is a name with the options of argparse. --help prints `doc`."""
    called = os.path.realpath(sys.argv[0])
    name = os.path.basename(called.removesuffix(".py").removesuffix("/run"))
    parser = argparse.ArgumentParser(
        prog=f"bench/run {name}", description=doc, formatter_class=argparse.RawDescriptionHelpFormatter
    )
    for name, options in arguments:
        parser.add_argument(name, **options)
    return parser.parse_args()


def need(*tools):
    """Ends the program where one of these isn't on the PATH."""
    for tool in tools:
        if not shutil.which(tool):
            sys.exit(f"{tool} is not on the PATH")


def program_of(crate):
    """The program of a crate, which is proved and built from the sources as they are."""
    need("rt")
    folder = os.path.join(TOP, "crates", crate)
    made = subprocess.run(
        ["rt", "run"], cwd=folder, stdin=subprocess.DEVNULL, stdout=subprocess.PIPE, stderr=subprocess.STDOUT, text=True
    )
    if made.returncode:
        sys.exit(made.stdout)
    return os.path.join(folder, "out", crate)


def gateway():
    """The program that FIXGATE names, or else that of the repository, which is built from the sources as they are. It is run
    itself and not by `./fixgate`, which compares the sources first."""
    if os.environ.get("FIXGATE"):
        return os.environ["FIXGATE"]
    if subprocess.run([os.path.join(TOP, "fixgate"), "drill", "1"], stdout=subprocess.DEVNULL).returncode:
        sys.exit("the gateway isn't built, so nothing is run")
    return os.path.join(TOP, "crates", "gateway_cli", "out", "gateway_cli")


def yardstick(folder, name):
    """The program in plain Rust whose source is bench/NAME.rs."""
    need("rustc", "cc")
    program = os.path.join(folder, name)
    source = os.path.join(TOP, "bench", name + ".rs")
    subprocess.run(["rustc", "--edition", "2021", "-C", "opt-level=2", "-o", program, source], check=True)
    return program
