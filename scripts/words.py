"""words.py ABD

Compares the commands and options that `abd --help` and `abd COMMAND --help` tell with those of the man page docs/abd.1 and of the
completions docs/completions, so that none is forgotten. Ends with status 1 where they differ.
"""

import re
import subprocess
import sys

PAGES = {
    "docs/abd.1": r"(?:Fl Fl |^\.Nm\n\.Cm )([a-z-]+)",
    "docs/completions/abd.bash": r"--([a-z-]+)|(?<=[ \"])(check|decide|draw|explain|justify|monitor|simulate|split|trace|run)(?=[ \"])",
    "docs/completions/_abd": r"--([a-z-]+)\[|'([a-z]+):",
    "docs/completions/abd.fish": r"^complete.* -l ([a-z-]+)|-f -a ([a-z-]+)",
}


def told(abd, words):
    """The help that these words ask for."""
    return subprocess.run([abd, *words, "--help"], capture_output=True, text=True, check=True).stdout


def main():
    abd = sys.argv[1]
    help_text = told(abd, [])
    commands = re.findall(r"^  ([a-z]+) ", help_text.split("Commands:")[1].split("Options:")[0], re.M)
    wanted = {it for it in commands if it != "help"} | set(re.findall(r"--([a-z-]+)", help_text.split("Options:")[1]))
    for command in commands:
        if command != "help":
            wanted |= set(re.findall(r"--([a-z-]+)", told(abd, [command]).split("Options:")[1].split("\n\n")[0]))
    bad = False
    for page, pattern in PAGES.items():
        with open(page, encoding="utf-8") as file:
            found = {"".join(it) if isinstance(it, tuple) else it for it in re.findall(pattern, file.read(), re.M)}
        for word in sorted(wanted - found):
            bad = True
            print(f"{page} lacks {word}")
        for word in sorted(found - wanted - {"help", "check", "decide", "draw", "explain", "justify", "monitor", "simulate", "split", "trace", "run"}):
            bad = True
            print(f"{page} has {word}, which abd doesn't take")
    print("all words stand in each" if not bad else f"abd takes {' '.join(sorted(wanted))}")
    sys.exit(bad)


if __name__ == "__main__":
    main()
