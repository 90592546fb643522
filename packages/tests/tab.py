"""Tests completion in an interactive shell on a pseudo-terminal: types a line and TAB, and compares what then stands in the line.

    tab.py bash|zsh SETUP REPOSITORY

SETUP is what the shell reads first. The options are those that the programs print with --help. The last line is `N passed, M failed`."""
import os
import pathlib
import pty
import re
import select
import subprocess
import sys
import tempfile
import time

SHELLS = {
    "bash": (["bash", "--norc", "--noprofile", "-i"], "show() { printf '%s|' \"$READLINE_LINE\" >$BUFFER; }; bind -x '\"\\C-t\": show'"),
    "zsh": (["zsh", "-f", "-i"], "show() { printf '%s|' \"$BUFFER\" >$SHOWN }; zle -N show; bindkey -e; bindkey '^T' show"),
}


class Shell:
    def __init__(self, name, setup, folder):
        words, shows = SHELLS[name]
        self.shown = folder / "shown"
        self.pid, self.terminal = pty.fork()
        if self.pid == 0:
            os.chdir(folder / "files")
            where = {"bash": "BUFFER", "zsh": "SHOWN"}[name]
            os.execvpe(words[0], words, {**os.environ, "TERM": "dumb", "PS1": "> ", where: str(self.shown), "HOME": str(folder)})
        self.send(f"{setup}\n{shows}\n")
        self.read(1.0)

    def send(self, text):
        os.write(self.terminal, text.encode())

    def read(self, seconds):
        """What comes until nothing more does for so long."""
        found = b""
        while select.select([self.terminal], [], [], seconds)[0]:
            try:
                found += os.read(self.terminal, 4096)
            except OSError:
                break
        return found

    def line_after(self, typed):
        """What stands in the line after it was typed, and TAB."""
        self.shown.unlink(missing_ok=True)
        self.send("\x15" + typed + "\t\x14")
        for _ in range(400):
            self.read(0.02)
            text = self.shown.read_text() if self.shown.exists() else ""
            if text.endswith("|"):
                return text[:-1]
            time.sleep(0.005)
        return None


def option_cases():
    """Each long option of each command, as --help prints them."""
    for command in ("format", "each", "uniq", "find", "check"):
        printed = subprocess.run(["souper_items", command, "--help"], stdout=subprocess.PIPE, text=True, check=True).stdout
        options = re.findall(r"^ .*?(--[a-z-]+)", printed, re.MULTILINE)
        assert "--help" in options and "--color" in options, printed
        for option in options:
            # Another option may begin with the same letters.
            ends = ("", " ", "=") if any(other != option and other.startswith(option) for other in options) else (" ", "=")
            yield f"souper_items {command} {option}", [f"souper_items {command} {option}{end}" for end in ends]


CASES = [
    ("souper_items for", "souper_items format "),
    ("souper_items un", "souper_items uniq "),
    ("souper_items fi", "souper_items find "),
    ("souper_items che", "souper_items check "),
    ("souper_items hel", "souper_items help "),
    ("souper_items --vers", "souper_items --version "),
    ("souper_items help un", "souper_items help uniq "),
    ("souper_items format l", "souper_items format lhs "),
    ("souper_items each rh", "souper_items each rhs "),
    ("souper_items uniq --key -c re", "souper_items uniq --key -c rep "),
    ("souper_items check --color=al", "souper_items check --color=always "),
    ("souper_items check --color=", "souper_items check --color="),
    ("souper_items check --color ne", "souper_items check --color never "),
    ("souper_items check --color never l", "souper_items check --color never lhs "),
    ("souper_items check --color=never l", "souper_items check --color=never lhs "),
    ("souper_items check lhs har", "souper_items check lhs harvest.lhs "),
    ("souper_items check lhs harvest.lhs th", "souper_items check lhs harvest.lhs the\\ other.lhs "),
    ("souper_items format lhs har --wri", "souper_items format lhs har --write "),
    ("souper_items format lhs fold", "souper_items format lhs folder/"),
    ("souper_items find --unan", "souper_items find --unanswered "),
    ("souper_items find --in har", "souper_items find --in harvest.lhs "),
    ("souper_items find --in harvest.lhs th", "souper_items find --in harvest.lhs the\\ other.lhs "),
    ("souper_items nothing l", "souper_items nothing l"),
    ("souper_fmt l", "souper_fmt lhs "),
    ("souper_fmt sa", "souper_fmt same "),
    ("souper_fmt same rh", "souper_fmt same rhs "),
    ("souper_fmt same lhs har", "souper_fmt same lhs harvest.lhs "),
    ("souper_fmt same lhs harvest.lhs th", "souper_fmt same lhs harvest.lhs the\\ other.lhs "),
    ("souper_fmt lhs har", "souper_fmt lhs har"),
]


def main():
    name, setup = sys.argv[1], sys.argv[2]
    passed = failed = 0
    with tempfile.TemporaryDirectory() as text:
        folder = pathlib.Path(text)
        (folder / "files/folder").mkdir(parents=True)
        for file in ("harvest.lhs", "the other.lhs"):
            (folder / "files" / file).touch()
        shell = Shell(name, setup, folder)
        for typed, wanted in [*option_cases(), *((typed, [wanted]) for typed, wanted in CASES)]:
            found = shell.line_after(typed)
            if found in wanted:
                passed += 1
            else:
                failed += 1
                print(f"{typed!r}: {found!r} does not hold, it is not {wanted!r}")
        os.close(shell.terminal)
        os.waitpid(shell.pid, 0)
    print(f"{passed} passed, {failed} failed")
    return 1 if failed else 0


sys.exit(main())
