"""A script for bash that completes commands, options, and the names of pads."""
from __future__ import annotations

from .options import COMMANDS, COMMON, Command

_SCRIPT = '''# Completion of pads for bash: put it into ~/.local/share/bash-completion/completions/pads
_pads() {{
    local word=${{COMP_WORDS[COMP_CWORD]}} before=${{COMP_WORDS[COMP_CWORD - 1]}} command= at
    for ((at = 1; at < COMP_CWORD; at++)); do
        [[ ${{COMP_WORDS[at]}} == -* ]] || {{ command=${{COMP_WORDS[at]}}; break; }}
    done
    case $before in
{values}
    esac
    case $command in
    "") COMPREPLY=($(compgen -W "{commands} --help --version" -- "$word")) ;;
{words}
    esac
}}
# The names of the pads that may be read, if a server answers at once.
_pads_names() {{ timeout 2 pads list 2>/dev/null | cut -f 1; }}
complete -F _pads pads
'''


def bash() -> str:
    commands = " ".join(command.name for command in COMMANDS)
    return _SCRIPT.format(commands=commands, values="\n".join(_values()), words="\n".join(map(_words, COMMANDS)))


def _values() -> list[str]:
    """What can stand behind an option."""
    choices: dict[str, str] = {}
    for command in COMMANDS:
        for one in command.words:
            if one.is_option and "choices" in one.more:
                choices[one.names[-1]] = " ".join(one.more["choices"])
    lines = [f'    {name}) COMPREPLY=($(compgen -W "{values}" -- "$word")); return ;;' for name, values in sorted(choices.items())]
    return [*lines, '    --output | -o | --ca) COMPREPLY=($(compgen -f -- "$word")); return ;;']


def _words(command: Command) -> str:
    """What can stand behind a command: its options, and the pads or files that it takes."""
    options = " ".join(name for one in (*command.words, *COMMON) if one.is_option for name in one.names if name.startswith("--"))
    arguments = [one.names[0] for one in command.words if not one.is_option]
    more = ""
    if command.name == "import":
        more = ' $(compgen -f -- "$word")'
    elif "pad" in arguments and command.name != "create":
        more = ' $(compgen -W "$(_pads_names)" -- "$word")'
    for one in command.words:
        if not one.is_option and "choices" in one.more:
            options = f"{' '.join(one.more['choices'])} {options}"
    return f'    {command.name}) COMPREPLY=($(compgen -W "{options}" -- "$word"){more}) ;;'

