#!/usr/bin/env python3
"""Shows that the three quantities of time are kept apart when a program is built: passing one where another is wanted is refused.

Run at the repository's root. For each call of crate weektime it builds a small crate that passes a Towc, a SecondOfWeek, a Week and a plain u32 in
turn; only the right one may build (for the three `new`, the plain number), and the others must be refused with error[mismatched-types]. Exit status 1
where that is not so.
"""
import pathlib, shutil, subprocess, sys, tempfile

TYPES = ["weektime::Towc", "weektime::SecondOfWeek", "weektime::Week", "u32"]
# call, the type it takes, and its result
CALLS = [
    ("weektime::Towc::new(x)", "u32", "weektime::Towc"),
    ("weektime::SecondOfWeek::new(x)", "u32", "weektime::SecondOfWeek"),
    ("weektime::Week::new(x)", "u32", "weektime::Week"),
    ("weektime::refused(x)", "weektime::Towc", "bool"),
    ("weektime::began_at(x)", "weektime::Towc", "Option<weektime::SecondOfWeek>"),
    ("weektime::count_in(x)", "weektime::SecondOfWeek", "Option<weektime::Towc>"),
    ("weektime::Towc::count(x)", "weektime::Towc", "u32"),
    ("weektime::SecondOfWeek::second(x)", "weektime::SecondOfWeek", "u32"),
    ("weektime::Week::number(x)", "weektime::Week", "u32"),
]


def builds(folder, given, call, result):
    tried = folder / "crates" / "tried"
    (tried / "src" / "lib.rt").write_text(f"#![tactic(auto)]\n\npub fn tried(x: {given}) -> {result} {{\n    {call}\n}}\n")
    out = subprocess.run(["rt", "check"], cwd=tried, stdin=subprocess.DEVNULL, capture_output=True, text=True)
    text = out.stdout + out.stderr
    return out.returncode == 0, "mismatched-types" in text, text


def main():
    root = pathlib.Path(__file__).resolve().parent.parent
    wrong = 0
    with tempfile.TemporaryDirectory() as temp:
        folder = pathlib.Path(temp)
        for name in ("bits", "weektime"):
            shutil.copytree(root / "crates" / name, folder / "crates" / name, ignore=shutil.ignore_patterns("out"))
        (folder / "crates" / "tried" / "src").mkdir(parents=True)
        (folder / "crates.txt").write_text("bits:\nweektime: bits\ntried: weektime\n")
        for call, wanted, result in CALLS:
            for given in TYPES:
                built, mismatched, text = builds(folder, given, call, result)
                good = built if given == wanted else mismatched and not built
                wrong += not good
                what = "builds" if built else "refused: mismatched-types" if mismatched else "refused for another reason"
                print(f"{'ok ' if good else 'BAD'} {call} given a {given}: {what}")
    print(f"{len(CALLS) * len(TYPES)} tried, {wrong} wrong")
    sys.exit(wrong != 0)


if __name__ == "__main__":
    main()
