"""Completion of the command line in bash, zsh and fish."""
from commands import forms as words
from commands import texts
from monitor import arguments

OPTIONS = [*words.OPTIONS, "--help", "--version", "--program"]
OF_MONITOR = [f"--{it.rstrip('=')}" for it in arguments.OPTIONS] + ["--help"]
MOST = max(len(kinds) for forms in words.FORMS.values() for kinds in forms)  # arguments of a command

BASH = """# Completion of dvbt in bash.
_dvbt() {{
    local word=${{COMP_WORDS[COMP_CWORD]}} command= it count=0
    for it in "${{COMP_WORDS[@]:1:COMP_CWORD-1}}"; do
        if [[ -n $command ]]; then ((count++)); elif [[ $it != -* ]]; then command=$it; fi
    done
    compopt +o default 2> /dev/null
    if [[ -z $command ]]; then
        COMPREPLY=($(compgen -W "{commands} {options}" -- "$word"))
    elif [[ $command == monitor && $word == -* ]]; then
        COMPREPLY=($(compgen -W "{of_monitor}" -- "$word"))
    elif [[ $word == -* ]]; then
        COMPREPLY=($(compgen -W "--help" -- "$word"))
    else
        case $command in
{cases}
        esac
    fi
}}
complete -F _dvbt dvbt
"""
FILES = 'compopt -o default 2> /dev/null; COMPREPLY=()'
ZSH = """#compdef dvbt
# Completion of dvbt in zsh.
_dvbt() {{
    local -a commands=(
{commands}
    )
    _arguments -C {options} '1:command:->command' '*::argument:->argument'
    case $state in
        command) _describe command commands ;;
        argument)
            case $words[1] in
{cases}
            esac
            ;;
    esac
}}
_dvbt "$@"
"""


def patterns(name):
    """By how many arguments stand before: whether the next one is a settings file, another file or a number."""
    longest = max(words.FORMS[name], key=len)
    return [{"settings": "*.toml", "number": None}.get(kind, "*") for kind, _ in longest]


def bash():
    rows = []
    for name in words.FORMS:
        files = [str(at) for at, it in enumerate(patterns(name)) if it]
        rows.append(f"            {name}) [[ {' || '.join(f'$count == {at}' for at in files)} ]] && {{ {FILES}; }} ;;")
    rows.append(f"            monitor) {FILES} ;;")
    commands = " ".join([*words.FORMS, "monitor"])
    return BASH.format(commands=commands, options=" ".join(OPTIONS), of_monitor=" ".join(OF_MONITOR), cases="\n".join(rows))


def zsh():
    commands = "\n".join(f"        '{name}:{text}'" for name, text in {**texts.SHORT, "monitor": texts.MONITOR}.items())
    rows = []
    for name in words.FORMS:
        specs = [f"'{at}:{kind}:_files{f' -g {chr(34)}{it}{chr(34)}' if it != '*' else ''}'" for at, (it, kind) in named(name) if it]
        rows.append(f"                {name}) _arguments {' '.join(specs)} ;;")
    rows.append(f"                monitor) _arguments {' '.join(OF_MONITOR)} '*:file:_files' ;;")
    options = " ".join(f"'{it}'" for it in OPTIONS)
    return ZSH.format(commands=commands, options=options, cases="\n".join(rows))


def named(name):
    """The arguments of the longest form, from 1, each with its pattern and its name."""
    longest = max(words.FORMS[name], key=len)
    return [(at, (pattern, kind)) for at, (pattern, (_, kind)) in enumerate(zip(patterns(name), longest), 1)]


def fish():
    lines = ["# Completion of dvbt in fish.", "complete -c dvbt -f"]
    for name in words.FORMS:
        lines.append(f"complete -c dvbt -n __fish_use_subcommand -a {name} -d '{texts.SHORT[name]}'")
        lines.append(f"complete -c dvbt -n '__fish_seen_subcommand_from {name}' -l help -d 'what it does'")
        if any(patterns(name)):
            lines.append(f"complete -c dvbt -n '__fish_seen_subcommand_from {name}' -F")
    lines.append(f"complete -c dvbt -n __fish_use_subcommand -a monitor -d '{texts.MONITOR}'")
    lines.append("complete -c dvbt -n '__fish_seen_subcommand_from monitor' -F")
    lines += [f"complete -c dvbt -n '__fish_seen_subcommand_from monitor' -l {it[2:]}" for it in OF_MONITOR]
    for it in OPTIONS:
        word = f"-l {it[2:]}" if it.startswith("--") else f"-s {it[1:]}"
        lines.append(f"complete -c dvbt -n __fish_use_subcommand {word}")
    return "\n".join(lines) + "\n"


COMPLETIONS = {
    "share/bash-completion/completions/dvbt": bash,
    "share/zsh/vendor-completions/_dvbt": zsh,
    "share/fish/vendor_completions.d/dvbt.fish": fish,
}
