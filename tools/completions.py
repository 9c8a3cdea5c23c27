"""Completions of a program's command lines in bash, zsh and fish, of its tables. They start no program."""

import os
import tables

# What is offered for a value, by the name that help gives it: a folder, a file, a file behind a request's letters, a command. For others nothing is.
FOLDER, FILE, REQUEST, COMMAND = range(4)
KINDS = {"DIR": FOLDER, "FILE": FILE, "PATH": FILE, "PROFILE": FILE, "WORD": REQUEST, "COMMAND": COMMAND}

IN_BASH = {FOLDER: "compopt -o dirnames", FILE: "compopt -o default", REQUEST: "compopt -o default", COMMAND: 'offered=$commands'}
IN_ZSH = {FOLDER: "_files -/", FILE: "_files", REQUEST: '{{compset -P "*[\\:>]"; _files}}', COMMAND: "_{name}_commands"}
IN_FISH = {FOLDER: "-x -a '(__fish_complete_directories)'", FILE: "-r -F", REQUEST: "-r -F", COMMAND: "-x -a '{commands}'"}

BASH = """\
# Completes the command lines of {name} in bash. Written by tools/package, of what `{name} help` prints.

_{name}() {{
    local at=$COMP_CWORD word before offered='' commands='{commands}'
    # (to bash an equals sign and a colon are words of their own)
    word=${{COMP_WORDS[at]}}
    [[ $word != [=:] ]] || {{ word='' && ((at++)); }}
    before=${{COMP_WORDS[at - 1]}}
    [[ $before != = ]] || before=${{COMP_WORDS[at - 2]}}
    local command=${{COMP_WORDS[1]}}
    ((COMP_CWORD > 1)) || command=''
    COMPREPLY=()
    case $command in
{cases}
    esac
    [[ -z $offered ]] || mapfile -t COMPREPLY < <(compgen -W "$offered" -- "$word")
}}

complete -F _{name} {name}
"""
BASH_CASE = """\
        {pattern})
            case $before:$word in
{values}                *:-*) offered='{options}' ;;
                *) {rest} ;;
            esac
            ;;"""
BASH_VALUE = "                {pattern}) {rest} ;;\n"

ZSH = """\
#compdef {name}
# Completes the command lines of {name} in zsh. Written by tools/package, of what `{name} help` prints.

_{name}_commands() {{
    local -a commands=(
{commands}
    )
    _describe -t commands command commands
}}

_{name}() {{
    local curcontext=$curcontext state line
    local -A opt_args
    _arguments -C -S \\
{options}
        '1:command:_{name}_commands' \\
        '*::argument:->argument'
    [[ $state == argument ]] || return
    case $words[1] in
{cases}
    esac
}}

_{name} "$@"
"""
ZSH_CASE = """\
        {name})
            _arguments -S \\
{rows}
            ;;"""

FISH = """\
# Completes the command lines of {name} in fish. Written by tools/package, of what `{name} help` prints.

# Whether the command is one of these; with none, whether it is yet to come.
function __{name}_is
    set -l words (commandline -opc)
    if test (count $words) -lt 2
        test (count $argv) = 0
    else
        contains -- $words[2] $argv
    end
end

complete -c {name} -f
{lines}
"""


def names_of(rows):
    return [name for it in rows for name in it.names]


def quoted(text):
    """A text between the single quotes of bash and zsh."""
    return text.replace("'", "'\\''")


def bash_rest(value):
    return IN_BASH.get(KINDS.get(value), ":")


def bash_case(pattern, options, rest):
    values = [BASH_VALUE.format(pattern=" | ".join(f"{name}:*" for name in it.names), rest=bash_rest(it.value)) for it in options if it.value]
    return BASH_CASE.format(pattern=pattern, values="".join(values), options=" ".join(names_of(options)), rest=rest)


def last_value(command):
    """The value of the words that may stand at the end of a command's line."""
    return command.words[-1].value if command.words else ""


def bash(name, whole, commands):
    cases = [bash_case("''", whole.options, IN_BASH[COMMAND])]
    cases += [bash_case(it.name, it.options, bash_rest(last_value(it))) for it in commands]
    return BASH.format(name=name, commands=" ".join(names_of(whole.commands)), cases="\n".join(cases))


def zsh_text(text):
    return quoted(text.replace("\\", "\\\\").replace("[", "\\[").replace("]", "\\]").replace(":", "\\:"))


def zsh_value(name, value):
    return f":{value}:{IN_ZSH.get(KINDS.get(value), ' ').format(name=name)}" if value else ""


def zsh_option(name, option):
    """An option, in each of its names: one with a value may come again, and stands apart from it or not."""
    for it in option.names:
        joint = "" if not option.value else "=" if it.startswith("--") else "+"
        again = "*" if option.value else f"({' '.join(option.names)})"
        yield f"'{again}{it}{joint}[{zsh_text(option.about)}]{zsh_value(name, option.value)}'"


def zsh_rows(name, command):
    for option in command.options:
        yield from zsh_option(name, option)
    for number, word in enumerate(command.words, 1):
        place = "*" if word is command.words[-1] else number
        yield f"'{place}{zsh_value(name, word.value)}'"


def zsh_case(name, command):
    return ZSH_CASE.format(name=command.name, rows=" \\\n".join(f"                {it}" for it in zsh_rows(name, command)))


def zsh(name, whole, commands):
    return ZSH.format(
        name=name,
        commands="\n".join(f"        '{it.names[0]}:{zsh_text(it.about)}'" for it in whole.commands),
        options="\n".join(f"        {it} \\" for option in whole.options for it in zsh_option(name, option)),
        cases="\n".join(zsh_case(name, it) for it in commands),
    )


def fish_text(text):
    """A text between the single quotes of fish."""
    return text.replace("\\", "\\\\").replace("'", "\\'")


def fish_value(value, commands):
    return f" {IN_FISH.get(KINDS.get(value), '-x').format(commands=commands)}" if value else ""


def fish_option(option, commands):
    names = "".join(f" {'-l' if it.startswith('--') else '-s'} {it.lstrip('-')}" for it in option.names)
    return f"{names}{fish_value(option.value, commands)} -d '{fish_text(option.about)}'"


def fish_rows(whole, commands):
    """What is offered where the command is yet to come, and then for each command."""
    names = " ".join(names_of(whole.commands))
    for it in whole.commands:
        yield "", f" -a {it.names[0]} -d '{fish_text(it.about)}'"
    for it in whole.options:
        yield "", fish_option(it, names)
    for command in commands:
        if command.words:
            yield command.name, fish_value(last_value(command), names).replace("-r ", "").replace("-x ", "")
        for it in command.options:
            yield command.name, fish_option(it, names)


def fish(name, whole, commands):
    lines = (f"complete -c {name} -n '{f'__{name}_is {command}'.rstrip()}'{said}" for command, said in fish_rows(whole, commands))
    return FISH.format(name=name, lines="\n".join(lines))


def of(program):
    """The scripts for a program, by the paths at which the shells look for them."""
    name = os.path.basename(program)
    found = (name, *tables.of(program))
    return {
        f"usr/share/bash-completion/completions/{name}": bash(*found),
        f"usr/share/zsh/vendor-completions/_{name}": zsh(*found),
        f"usr/share/fish/vendor_completions.d/{name}.fish": fish(*found),
    }
