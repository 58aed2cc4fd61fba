"""Completions for bash, zsh and fish, made from the tree of commands."""
from typing import Any, Iterator, List, Union

from . import helping
from .tree import options_of, places_of, read_tree


def words_of_places(command: Any) -> List[str]:
    """Returns the words that a command takes by their place, where they are certain ones."""
    if command.name == 'help':
        return [it.name for it in read_tree()[1]] + helping.TOPICS
    return [word for it in places_of(command) for word in it.choices or []]


def unique(words: Union[Iterator[Any], List[str]]) -> str:
    """Returns words with one space between them, repeats left out."""
    return ' '.join(dict.fromkeys(words))


# ---- bash

BASH = """# completions of gabzetu for bash; written by `gabzetu completions bash`
_gabzetu() {{
    local word=${{COMP_WORDS[COMP_CWORD]}} before=${{COMP_WORDS[COMP_CWORD-1]}} command=${{COMP_WORDS[1]}}
    local options= words=
    if [ "$COMP_CWORD" = 1 ]; then
        COMPREPLY=($(compgen -W "{commands}" -- "$word"))
        return
    fi
    case $command:$before in
{values}    esac
    case $command in
{options}    esac
    if [ -n "$words" ] && [ "${{word#-}}" = "$word" ]; then
        COMPREPLY=($(compgen -W "$words" -- "$word"))
    elif [ "${{word#-}}" != "$word" ]; then
        COMPREPLY=($(compgen -W "$options" -- "$word"))
    else
        local IFS=$'\n'
        COMPREPLY=($(compgen -f -- "$word"))
    fi
}}
complete -o filenames -F _gabzetu gabzetu
"""


def bash_value(command: Any, option: Any) -> str:
    """Returns the case of an option with certain values."""
    names = '|'.join(f'{command.name}:{name}' for name in option.names)
    return f'        {names}) COMPREPLY=($(compgen -W "{" ".join(option.choices)}" -- "$word")); return ;;\n'


def bash_options(command: Any) -> str:
    """Returns the case of a command: its options, and its words."""
    options = unique(name for it in options_of(command) for name in it.names)
    return f'        {command.name}) options="{options}" words="{unique(words_of_places(command))}" ;;\n'


def write_bash() -> str:
    """Returns the completions for bash."""
    top, commands = read_tree()
    first = unique([*(it.name for it in commands), *(name for it in options_of(top) for name in it.names)])
    values = ''.join(bash_value(command, it) for command in commands for it in options_of(command) if it.choices)
    return BASH.format(commands=first, values=values, options=''.join(map(bash_options, commands)))


# ---- zsh

ZSH = """#compdef gabzetu
# completions of gabzetu for zsh; written by `gabzetu completions zsh`
_gabzetu() {{
    local -a commands
    commands=(
{commands}    )
    if (( CURRENT == 2 )); then
        _describe command commands
        _arguments '(- *)'{{-h,--help}}'[help]' '(- *)--version[versions]'
        return
    fi
    local command=$words[2]
    shift words
    (( CURRENT-- ))
    case $command in
{cases}    esac
}}
_gabzetu "$@"
"""


def quoted(text: str) -> str:
    """Returns a text in single quotes, without the marks that zsh reads in descriptions."""
    plain = text.replace('[', '(').replace(']', ')').replace(':', ' ')
    return plain.replace("'", "'\\''")


def zsh_option(option: Any) -> List[str]:
    """Returns the names of an option as words of _arguments."""
    value = ''
    if option.value:
        value = f':{quoted(option.value)}:' + (f'({" ".join(option.choices)})' if option.choices else '_files')
    return [f"'{name}[{quoted(option.help)}]{value}'" for name in option.names]


def zsh_case(command: Any) -> str:
    """Returns the case of a command."""
    words = words_of_places(command)
    rest = f"'*:word:({unique(words)})'" if words else "'*:file:_files'"
    options = ' '.join(it for option in options_of(command) for it in zsh_option(option))
    return f'        {command.name}) _arguments {options} {rest} ;;\n'


def write_zsh() -> str:
    """Returns the completions for zsh."""
    _, commands = read_tree()
    names = ''.join(f"        '{it.name}:{quoted(it.summary)}'\n" for it in commands)
    return ZSH.format(commands=names, cases=''.join(map(zsh_case, commands)))


# ---- fish

FISH_HEAD = """# completions of gabzetu for fish; written by `gabzetu completions fish`
function __gabzetu_first
    test (count (commandline -opc)) -eq 1
end
"""


def fish_quoted(text: str) -> str:
    """Returns a text in single quotes."""
    return "'" + text.replace('\\', '\\\\').replace("'", "\\'") + "'"


def fish_option(command: Any, option: Any) -> str:
    """Returns the line of an option."""
    names = ' '.join(f'-l {it[2:]}' if it.startswith('--') else f'-s {it[1:]}' for it in option.names)
    value = '' if not option.value else f' -x -a {fish_quoted(" ".join(option.choices))}' if option.choices else ' -r'
    return (
        f"complete -c gabzetu -n '__fish_seen_subcommand_from {command.name}' {names}{value} -d "
        f"{fish_quoted(option.help)}\n"
    )


def fish_command(command: Any) -> str:
    """Returns the lines of a command."""
    first = f"complete -c gabzetu -n __gabzetu_first -f -a {command.name} -d {fish_quoted(command.summary)}\n"
    words = unique(words_of_places(command))
    if words:
        first += f"complete -c gabzetu -n '__fish_seen_subcommand_from {command.name}' -f -a {fish_quoted(words)}\n"
    return first + ''.join(fish_option(command, it) for it in options_of(command))


def write_fish() -> str:
    """Returns the completions for fish."""
    _, commands = read_tree()
    return FISH_HEAD + 'complete -c gabzetu -n __gabzetu_first -l version\n' + ''.join(map(fish_command, commands))


SHELLS = {'bash': write_bash, 'zsh': write_zsh, 'fish': write_fish}
