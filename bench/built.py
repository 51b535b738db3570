"""Programs of bench/ over some crates, proved and built in folders of their own, outside the gate."""

import pathlib
import resource
import shutil
import subprocess

HOME = pathlib.Path(__file__).resolve().parent.parent


def build(
    root: pathlib.Path, name: str, uses: str, crates: list[str], words: list[str], proofs: dict[str, str] | None = None,
    handles: str = "none", clone: pathlib.Path = HOME, instead: dict[str, str] | None = None,
) -> pathlib.Path:
    """Copies the clone's crates and the program bench/programs/NAME.txt below root, runs it once with `rt run`, and gives its path.
    `proofs` gives for each further file of the program the text in bench/programs/ that it is, and `instead` what is to stand for
    some texts in the program, where the crates of another clone have other names."""
    for crate in crates:
        shutil.copytree(clone / "crates" / crate, root / "crates" / crate, symlinks=True)
    home = root / "crates" / name
    (home / "src").mkdir(parents=True)
    program = (HOME / "bench" / "programs" / f"{name}.txt").read_text()
    for found, wanted in (instead or {}).items():
        program = program.replace(found, wanted)
    (home / "src" / "main.rt").write_text(program)
    for path, text in (proofs or {}).items():
        (home / path).parent.mkdir(parents=True, exist_ok=True)
        shutil.copy(HOME / "bench" / "programs" / text, home / path)
    lines = (clone / "crates.txt").read_text().splitlines()
    kept = [line for line in lines if line.split(":")[0] in crates]
    (root / "crates.txt").write_text("\n".join(kept) + f"\n{name}: {uses}\n")
    (root / "HANDLES").write_text(f"Handles allowed: {handles}.\n")
    subprocess.run(["git", "init", "-q", str(root)], check=True)
    subprocess.run(["rt", "run", "--", *words], cwd=home, check=True)
    return home / "out" / name


def seconds(program: pathlib.Path, words: list[str]) -> float:
    """The processor time of one run."""
    before = resource.getrusage(resource.RUSAGE_CHILDREN)
    subprocess.run([program, *words], check=True, stdout=subprocess.DEVNULL)
    after = resource.getrusage(resource.RUSAGE_CHILDREN)
    return after.ru_utime + after.ru_stime - before.ru_utime - before.ru_stime


def microseconds(program: pathlib.Path, words: list[str], count: int, runs: int) -> float:
    """The processor time of one of `count` repetitions: the difference of two runs, the least of `runs` each."""
    one = min(seconds(program, [*words, "1"]) for _ in range(runs))
    all_of_them = min(seconds(program, [*words, str(count)]) for _ in range(runs))
    return (all_of_them - one) / (count - 1) * 1e6
