"""A copy of the crates, in which scripts change one and look what `rt check` says of it and of the crates above it. The copy lies outside the repository,
whose `rt ci` refuses .rt and .antt files beside those of its crates. A check there begins with what checks in other copies of this machine kept, so only what a
change touches is checked."""
import pathlib, re, shutil, subprocess

ROOT = pathlib.Path(__file__).resolve().parent.parent


def fresh(tree, crates=()):
    """The crates as they stand, in the tree: all where it is new, else those that are named."""
    if not (tree / "crates").exists():
        (tree / ".git").mkdir(parents=True)  # the top of a repository
        crates = [p.name for p in (ROOT / "crates").iterdir()]
    shutil.copy(ROOT / "crates.txt", tree)
    for crate in crates:
        for part in ("src", "specs", "proofs"):
            shutil.rmtree(tree / "crates" / crate / part, ignore_errors=True)
            if (ROOT / "crates" / crate / part).exists():
                shutil.copytree(ROOT / "crates" / crate / part, tree / "crates" / crate / part)


def check(tree, crate, below=()):
    """Whether `crate` and those `below`, the lowest first, are proved, and what was said: each path from its crate's name on, up to the first that is not."""
    said = ""
    for each in (*below, crate):
        done = subprocess.run(["rt", "check"], cwd=tree / "crates" / each, capture_output=True, text=True)
        said += re.sub(r"^(?:\./)?((?:src|specs|proofs)/\S+:\d+:\d+: )", rf"{each}/\1", done.stdout + done.stderr, flags=re.M)
        if done.returncode:
            return False, said
    return True, said


def errors(said):
    """The errors, each from its crate's name on."""
    return [line for line in said.split("\n") if ": error" in line or line.startswith("error")]


def unproved(said):
    """The functions that are not proved."""
    return re.findall(r"^fn (\S+): (?:not proved|could not tell|no proof)", said, re.M)


def is_verdict(said):
    """Whether the provers were reached."""
    return re.search(r"^logic=", said, re.M) is not None
