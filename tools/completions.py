#!/usr/bin/env python3
"""Prints the completions of both programs for a shell, from the tables of the program's help.

usage: python3 tools/completions.py bash|zsh

The commands and the names of their words are the constants of crates/command_hints/src/commands.rt. By its name a word
is completed: as a file with an ending, as the name of an office, or not at all. A name without a line in FILES and
without one in NOTHING is printed on standard error, and the exit status is then 1.
"""
import sys

from manual import VIEW_WORDS, table

# The endings of the files that a word names; none: any file.
FILES = {"LOG": "log", "SCRIPT": "script", "ROSTER": "roster", "RULES": "rules", "PROOF": "proof", "KEY": "key",
         "SIG": "sig", "NAME": "office", "PREFIX": "", "FILE": ""}
NOTHING = {"X", "Y", "N", "SEED"}

BASH = """\
# Completions of auditorium and auditorium_view for bash. Made by tools/completions.py.

# Names files with the ending $1, if there is one, and folders, that begin with $2.
_auditorium_files() {
    compopt -o filenames 2>/dev/null
    mapfile -t COMPREPLY < <(
        if [ "$1" ]; then
            compgen -f -X "!*.$1" -- "$2"
            compgen -d -- "$2"
        else
            compgen -f -- "$2"
        fi
    )
}

_auditorium() {
    local word=${COMP_WORDS[COMP_CWORD]} first=2 kind words
    COMPREPLY=()
    if [ "${COMP_WORDS[0]##*/}" = auditorium_view ]; then
        first=1
        # The word `picture` may come before the others.
        [ "$COMP_CWORD" -gt 1 ] && [ "${COMP_WORDS[1]}" = picture ] && first=2
        words=(@VIEW@)
    elif [ "$COMP_CWORD" -eq 1 ]; then
        mapfile -t COMPREPLY < <(compgen -W '@COMMANDS@' -- "$word")
        return
    else
        case ${COMP_WORDS[1]} in
@CASES@
        *) return ;;
        esac
    fi
    kind=${words[COMP_CWORD - first]-}
    # The last word of some may be repeated.
    [ "$kind" ] || case ${words[-1]} in *..) kind=${words[-1]} ;; esac
    case ${kind%..} in
@KINDS@
    esac
    if [ "$first" -eq 1 ] && [ "$COMP_CWORD" -eq 1 ]; then
        mapfile -t -O ${#COMPREPLY[@]} COMPREPLY < <(compgen -W picture -- "$word")
    fi
}

complete -F _auditorium auditorium auditorium_view
"""

ZSH = """\
#compdef auditorium auditorium_view
# Completions of auditorium and auditorium_view for zsh. Made by tools/completions.py.

_auditorium() {
    local -a commands words_after
    local first=3 kind
    commands=(
@COMMANDS@
    )
    if [[ ${words[1]:t} == auditorium_view ]]; then
        first=2
        # The word `picture` may come before the others.
        (( CURRENT == 2 )) && compadd -- picture
        (( CURRENT > 2 )) && [[ ${words[2]} == picture ]] && first=3
        words_after=(@VIEW@)
    elif (( CURRENT == 2 )); then
        _describe command commands
        return
    else
        case ${words[2]} in
@CASES@
        *) return 1 ;;
        esac
    fi
    kind=${words_after[CURRENT - first + 1]}
    # The last word of some may be repeated.
    if [[ -z $kind && ${words_after[-1]} == *.. ]]; then
        kind=${words_after[-1]}
    fi
    case ${kind%..} in
@KINDS@
        *) return 1 ;;
    esac
}

_auditorium "$@"
"""


def commands():
    """Each command, with the names of its words and what it does."""
    for line, does in table("COMMANDS"):
        command, *words = line.split()
        yield command, words, does


def bash():
    kinds = []
    for name, ending in FILES.items():
        action = f'_auditorium_files "{ending}" "$word"'
        if name == "NAME":
            # An office is named without the ending of its file.
            action += ' && COMPREPLY=("${COMPREPLY[@]%.office}")'
        elif name == "RULES":
            action += ' && mapfile -t -O ${#COMPREPLY[@]} COMPREPLY < <(compgen -W standard -- "$word")'
        kinds.append(f"    {name}) {action} ;;")
    return (BASH.replace("@COMMANDS@", " ".join(command for command, _, _ in commands()))
            .replace("@CASES@", "\n".join(f"        {command}) words=({' '.join(words)}) ;;"
                                          for command, words, _ in commands()))
            .replace("@VIEW@", " ".join(VIEW_WORDS)).replace("@KINDS@", "\n".join(kinds)))


def zsh():
    kinds = []
    for name, ending in FILES.items():
        action = f"_files -g '*.{ending}'" if ending else "_files"
        if name == "NAME":
            action = "compadd -- *.office(N:r)"
        elif name == "RULES":
            action = f"_alternative 'rules:rules:(standard)' \"files:file:_files -g '*.{ending}'\""
        kinds.append(f"        {name}) {action} ;;")
    described = [f"""        '{command}:{does.replace("'", "'" + chr(92) + "''")}'""" for command, _, does in commands()]
    return (ZSH.replace("@COMMANDS@", "\n".join(described))
            .replace("@CASES@", "\n".join(f"        {command}) words_after=({' '.join(words)}) ;;"
                                          for command, words, _ in commands()))
            .replace("@VIEW@", " ".join(VIEW_WORDS)).replace("@KINDS@", "\n".join(kinds)))


def main():
    shells = {"bash": bash, "zsh": zsh}
    if len(sys.argv) != 2 or sys.argv[1] not in shells:
        sys.exit("usage: python3 tools/completions.py bash|zsh")
    names = {word.removesuffix("..") for _, words, _ in commands() for word in words}
    unknown = sorted(names - set(FILES) - NOTHING)
    for name in unknown:
        print(f"how is {name} completed?", file=sys.stderr)
    print(shells[sys.argv[1]](), end="")
    return 1 if unknown else 0


if __name__ == "__main__":
    sys.exit(main())
