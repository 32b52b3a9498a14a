"""What the completions offer, in each shell that has them."""

import shlex
import subprocess

from common import TOP

# The words of a command line, the last one being completed; what is offered then, and what is not.
CASES = [
    ("slotshift ''", "replay-table", "picture"),
    ("slotshift check examples/", "examples/loop.toml", "examples/loop.csv"),
    ("slotshift replay examples/loop.toml examples/", "examples/loop.csv", "examples/loop.toml"),
    ("slotshift replay examples/loop.toml /dev/", "/dev/stdin", "/dev/stdout"),
    ("slotshift verify examples/other.toml examples/other.csv examples/", "examples/other.trace", "examples/loop.csv"),
    ("slotlive ''", "examples/", "--record"),
    ("slotlive -", "--table", "examples/"),
    ("slotlive --table examples/", "examples/first.bin", "examples/loop.toml"),
    ("slotlive examples/loop.toml ''", "--record", "--table"),
    ("slotlive examples/loop.toml --record examples/", "examples/loop.csv", "examples/loop.toml"),
    ("slotlive examples/loop.toml --record /dev/", "/dev/null", "/dev/stdin"),
    ("slotlive examples/loop.toml --record /dev/st", "", "/dev/stdin"),
    ("slotview ''", "waves", "margin"),
    ("slotview jobs examples/", "examples/loop.toml", "examples/first.bin"),
    ("slotview jobs --table examples/", "examples/first.bin", "examples/loop.toml"),
    ("slotunits ''", "tasks", "load"),
    ("slotunits tasks examples/", "examples/loop.toml", "examples/loop.csv"),
    ("slotunits arrivals examples/flight.units.toml examples/", "examples/flight.units.csv", "examples/loop.toml"),
    ("slotlint -", "--json", "--record"),
    ("slotlint examples/", "examples/loop.toml", "examples/loop.csv"),
    ("slotlint --tasks examples/loop.toml examples/", "examples/loop.csv", "examples/loop.toml"),
]

# Prints what is offered for the words of this script.
BASH = """
. completions/slotshift.bash
COMP_WORDS=("$@") COMP_CWORD=$(($# - 1))
_$1
printf '%s\\n' "${COMPREPLY[@]%/}"
"""

# The same, with what zsh has for completions in place of its own, which work at a prompt alone: each prints what it is
# given to offer.
ZSH = r"""
fpath=($PWD/completions)
autoload -Uz _slotshift_files
compadd() { shift $argv[(i)--]; print -rl -- $argv }
_message() { : }
_describe() { print -rl -- ${${(P)2}%%:*} }
_files() { local pattern=$argv[-1]; print -rl -- $PREFIX${~pattern}(N) $PREFIX*(N/) }
_path_files() { print -rl -- $PREFIX*(N/) }
_alternative() {
  local it
  for it; do
    it=${it#*:*:}
    case $it in
      \(*) print -rl -- ${=${it#\(}%\)} ;;
      *) ${=it} ;;
    esac
  done
}
words=("$@") CURRENT=$# PREFIX=$argv[-1]
. completions/_$1
"""

SHELLS = {"bash": ["bash", "--norc", "-c", BASH, "bash"], "zsh": ["zsh", "-f", "-c", ZSH, "zsh"]}


def completions_differ(shell):
    """The command lines for which this shell offers otherwise than is due."""
    differ = []
    for line, due, undue in CASES:
        ran = subprocess.run([*SHELLS[shell], *shlex.split(line)], cwd=TOP, stdin=subprocess.DEVNULL, capture_output=True)
        offered = {word.rstrip("/") for word in ran.stdout.decode().split("\n")}
        if due.rstrip("/") not in offered or undue.rstrip("/") in offered or ran.stderr:
            differ.append(f"{line}: {ran.stderr.decode(errors='replace').strip() or sorted(offered)}")
    return differ
