"""The command ``completion``: what bash, zsh and fish complete behind ``bench``, made from the parsers of its commands."""

from __future__ import annotations

import argparse
import re
from argparse import Action, ArgumentParser, Namespace, _SubParsersAction
from collections.abc import Callable, Iterator
from dataclasses import dataclass
from typing import Final

from . import inputs

#: Where a shell looks for the script, below the folder ``share`` of a prefix.
PLACES: Final = {
    "bash": "bash-completion/completions/bench",
    "zsh": "zsh/site-functions/_bench",
    "fish": "fish/vendor_completions.d/bench.fish",
}
# The names that values which are files have in the help; the text of -e is itself, and no file.
_FILES: Final = frozenset({"FILE", "TEXT", "SCHEDULE", "PAGE", "RECORD", "JOURNAL", "A", "B"})


@dataclass(frozen=True, slots=True)
class Argument:
    """An argument of a command: an option by its names, or a plain word, which has none."""

    names: tuple[str, ...]
    #: What its value is called; empty where it has none.
    value: str
    choices: tuple[str, ...]
    is_file: bool
    #: Whether it may be given more than once.
    again: bool
    #: Whether it may have more values than one.
    many: bool
    says: str


@dataclass(frozen=True, slots=True)
class Command:
    """A command, what its help says in a line, and its arguments."""

    name: str
    says: str
    arguments: tuple[Argument, ...]

    @property
    def options(self) -> list[Argument]:
        return [argument for argument in self.arguments if argument.names]

    @property
    def words(self) -> tuple[str, ...]:
        """The words that may stand behind it, where there is a choice of them."""
        return tuple(word for argument in self.arguments if not argument.names for word in argument.choices)

    @property
    def takes_files(self) -> bool:
        """Whether plain words behind it are files: its own, or further ones of an option."""
        return any(argument.is_file and (not argument.names or argument.many) for argument in self.arguments)


def register(subparsers: _SubParsersAction[ArgumentParser]) -> None:
    """Adds the command ``completion``."""
    completion = subparsers.add_parser(
        "completion",
        help="write what a shell needs to complete the arguments of bench",
        description="Writes the script by which a shell completes commands, options and files behind `bench`.\n"
        "An installed package has these scripts where the shells look for them.",
        epilog="example:\n  source <(./bench completion bash)\n  ./bench completion fish -o ~/.config/fish/completions/bench.fish",
    )
    completion.add_argument("shell", metavar="SHELL", choices=tuple(PLACES), help=f"one of {', '.join(PLACES)}")
    completion.add_argument("-o", dest="output", metavar="FILE", help="where the script is written; standard output if not given")
    completion.set_defaults(run=_completion)


def _completion(arguments: Namespace) -> int:
    from . import cli

    inputs.write(arguments.output, script(arguments.shell, cli.parser()).encode("utf-8"))
    return 0


def script(shell: str, parser: ArgumentParser) -> str:
    """The script of a shell; ``parser`` is that of ``bench``."""
    top = Command("", "", tuple(_arguments(parser)))
    lines = _SCRIPTS[shell](top, list(_commands(parser)))
    return "".join(f"{line}\n" for line in lines)


# ---- what the parsers have


def _commands(parser: ArgumentParser) -> Iterator[Command]:
    for action in parser._actions:
        if isinstance(action, _SubParsersAction):
            says = {choice.dest: choice.help for choice in action._choices_actions}
            for name, of in action.choices.items():
                yield Command(name, says.get(name) or "", tuple(_arguments(of)))


def _arguments(parser: ArgumentParser) -> Iterator[Argument]:
    for action in parser._actions:
        if not isinstance(action, _SubParsersAction):
            yield _argument(parser, action)


def _argument(parser: ArgumentParser, action: Action) -> Argument:
    # The first part of the help, with what it takes from the parser filled in.
    says = re.split(r"[;(]", parser._get_formatter()._expand_help(action))[0] if action.help else ""
    value = "" if action.nargs == 0 else str(action.metavar or action.dest.upper())
    return Argument(
        names=tuple(action.option_strings),
        value=value,
        choices=tuple(map(str, action.choices or ())),
        is_file=value in _FILES and "-e" not in action.option_strings,
        again=isinstance(action, argparse._AppendAction),
        many=action.nargs in ("+", "*"),
        says=" ".join(says.split()),
    )


# ---- bash


def _bash(top: Command, commands: list[Command]) -> Iterator[str]:
    yield from ("# What bash completes behind `bench`: made by `bench completion bash`.", "_bench() {")
    yield from (
        "    local word=${COMP_WORDS[COMP_CWORD]} before=${COMP_WORDS[COMP_CWORD - 1]} words= files=",
        "    # --option=value comes as three words.",
        "    [[ $before == '=' ]] && before=${COMP_WORDS[COMP_CWORD - 2]}",
        "    [[ $word == '=' ]] && word=",
    )
    yield "    case $((COMP_CWORD > 1)):${COMP_WORDS[1]} in"
    yield f"    0:*) words={_quoted(' '.join([*_names(top), *(command.name for command in commands)]))} ;;"
    for command in commands:
        yield f"    1:{command.name})"
        yield "        case $before in"
        for option in command.options:
            if option.value:
                takes = "files=1" if option.is_file else f"words={_quoted(' '.join(option.choices))}"
                yield f"        {' | '.join(option.names)}) {takes} ;;"
        yield f"        *) words={_quoted(' '.join(command.words))} files={'1' if command.takes_files else ''}"
        yield f"            if [[ $word == -* ]]; then words={_quoted(' '.join(_names(command)))} files=; fi ;;"
        yield "        esac ;;"
    yield from (
        "    esac",
        '    mapfile -t COMPREPLY < <(compgen -W "$words" ${files:+-f} -- "$word")',
        "    if [[ -n $files ]]; then compopt -o filenames 2> /dev/null; fi",
        "}",
        "complete -F _bench bench",
    )


def _names(command: Command) -> list[str]:
    return [name for option in command.options for name in option.names]


def _quoted(text: str) -> str:
    """A word of bash and zsh."""
    return "'" + text.replace("'", "'\\''") + "'"


# ---- zsh


def _zsh(top: Command, commands: list[Command]) -> Iterator[str]:
    yield from ("#compdef bench", "# What zsh completes behind `bench`: made by `bench completion zsh`.", "_bench() {")
    yield "    local curcontext=$curcontext state line"
    yield "    typeset -A opt_args"
    yield "    local -a commands=("
    for command in commands:
        yield f"        {_quoted(f'{command.name}:{command.says}')}"
    yield "    )"
    yield f"    _arguments -C {' '.join(map(_zsh_argument, top.options))} '1: :->command' '*:: :->arguments'"
    yield "    case $state in"
    yield "    command) _describe command commands ;;"
    yield "    arguments)"
    yield "        case $words[1] in"
    for command in commands:
        yield f"        {command.name})"
        first, *rest = map(_zsh_argument, command.arguments)
        yield " \\\n                ".join([f"            _arguments {first}", *rest]) + " ;;"
    yield from ("        esac ;;", "    esac", "}", "# Loaded by its name it completes; sourced it makes itself known.")
    yield 'if [[ $funcstack[1] == _bench ]]; then _bench "$@"; else compdef _bench bench; fi'


def _zsh_argument(argument: Argument) -> str:
    """An argument in the form of ``_arguments``."""
    value = ""
    if argument.value:
        # An empty list has nothing to offer; a message in its place would keep options from being put in.
        takes = "_files" if argument.is_file else f"({' '.join(argument.choices) or ' '})"
        value = f":{'*:' if argument.many and argument.names else ''}{_zsh_safe(argument.value)}:{takes}"
    if not argument.names:
        return _quoted(f"*{value}" if argument.many else value)
    # What may be given again, else which names a name goes without.
    before = "*" if argument.again else f"({' '.join(argument.names)})"
    names = f"{{{','.join(argument.names)}}}" if len(argument.names) > 1 else argument.names[0]
    return f"{_quoted(before)}{names}{_quoted(f'[{_zsh_safe(argument.says)}]{value}')}"


def _zsh_safe(text: str) -> str:
    for sign in "\\[]:":
        text = text.replace(sign, f"\\{sign}")
    return text


# ---- fish


def _fish(top: Command, commands: list[Command]) -> Iterator[str]:
    yield "# What fish completes behind `bench`: made by `bench completion fish`."
    yield from ("function __bench_first", "    test (count (commandline -opc)) -eq 1", "end")
    yield from ("function __bench_is", "    set -l words (commandline -opc)")
    yield from ('    test (count $words) -ge 2; and test "$words[2]" = "$argv[1]"', "end")
    yield "complete -c bench -f"
    for option in top.options:
        yield f"complete -c bench -n __bench_first {_fish_argument(option)}"
    for command in commands:
        yield f"complete -c bench -n __bench_first -a {command.name} -d {_fish_quoted(command.says)}"
        behind = f"complete -c bench -n {_fish_quoted(f'__bench_is {command.name}')}"
        for option in command.options:
            yield f"{behind} {_fish_argument(option)}"
        if command.words:
            yield f"{behind} -a {_fish_quoted(' '.join(command.words))}"
        if command.takes_files:
            yield f"{behind} -F"


def _fish_argument(option: Argument) -> str:
    names = " ".join(f"-l {name[2:]}" if name.startswith("--") else f"-s {name[1:]}" for name in option.names)
    choices = f" -a {_fish_quoted(' '.join(option.choices))}" if option.choices else ""
    takes = "" if not option.value else " -r -F" if option.is_file else f" -x{choices}"
    return f"{names}{takes} -d {_fish_quoted(option.says)}"


def _fish_quoted(text: str) -> str:
    return "'" + text.replace("\\", "\\\\").replace("'", "\\'") + "'"


_SCRIPTS: Final[dict[str, Callable[[Command, list[Command]], Iterator[str]]]] = {"bash": _bash, "zsh": _zsh, "fish": _fish}
