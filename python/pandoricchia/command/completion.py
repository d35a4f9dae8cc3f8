"""The verb completion: what bash and zsh complete, made from the parser. A test holds the stored files to it."""
from __future__ import annotations

import argparse
from typing import Iterator, List, Tuple

from .files import Sink
from .manual import below
from .parser import parser




def _verbs(made: argparse.ArgumentParser) -> Iterator[Tuple[str, argparse.ArgumentParser]]:
    """Every parser with the words that lead to it."""
    yield made.prog.partition(" ")[2], made
    for inner in below(made).values():
        yield from _verbs(inner)


def _options(made: argparse.ArgumentParser) -> List[argparse.Action]:
    return [action for action in made._actions if action.option_strings]


def _values(action: argparse.Action) -> List[str]:
    """What an option or an argument may be, where that is a short list."""
    found = getattr(action.type, "codes", ()) if action.option_strings else action.choices or ()
    return [str(value) for value in found]


def _is_file(action: argparse.Action) -> bool:
    return action.metavar == "FILE"


def _spelled(options: List[argparse.Action]) -> List[str]:
    return [name for action in options for name in action.option_strings]


def _takes(action: argparse.Action) -> bool:
    return action.nargs != 0


# bash

_BASH = """\
# What bash completes for pandoricchia, made from its parser: pandoricchia completion bash
_pandoricchia() {
    local now=${COMP_WORDS[COMP_CWORD]} before=${COMP_WORDS[COMP_CWORD - 1]} verb= k
    local names options files coded codes valued # verbs or arguments; options, and what some of them take
    for ((k = 1; k < COMP_CWORD; k++)); do
        case "$verb:${COMP_WORDS[k]}" in
        %s)
            verb="${verb:+$verb }${COMP_WORDS[k]}" ;;
        esac
    done
    case "$verb" in
%s
    esac
    COMPREPLY=()
    [[ " $files " == *" $before "* ]] && return # readline completes files
    [[ $now == -* ]] && names=$options
    [[ " $coded " == *" $before "* ]] && names=$codes
    [[ " $valued " == *" $before "* ]] && names=
    [[ " $coded $valued " == *" $before "* ]] && compopt +o default
    mapfile -t COMPREPLY < <(compgen -W "$names" -- "$now")
}
complete -o default -F _pandoricchia pandoricchia
"""


def _bash_verb(name: str, made: argparse.ArgumentParser) -> str:
    """What can stand behind a verb."""
    options = _options(made)
    files, coded = [action for action in options if _is_file(action)], [action for action in options if _values(action)]
    valued = [action for action in options if _takes(action) and action not in files and action not in coded]
    arguments = [] if below(made) else [action for action in made._actions if not action.option_strings]
    held = {
        "names": [*below(made), *(value for action in arguments for value in _values(action))],
        "options": _spelled(options),
        "files": _spelled(files),
        "coded": _spelled(coded),
        "codes": [value for action in coded for value in _values(action)],
        "valued": _spelled(valued),
    }
    return f'    "{name}") ' + " ".join(f"{kind}='{' '.join(words)}'" for kind, words in held.items() if words) + " ;;"


def bash() -> str:
    """A function for bash: verbs, options where a dash begins one, and what an option takes; else readline completes files."""
    verbs = dict(_verbs(parser()))
    steps = [f"{group}:{name}" for group, made in verbs.items() for name in below(made)]
    return _BASH % (" | ".join(steps), "\n".join(_bash_verb(name, made) for name, made in verbs.items()))


# zsh


def _quoted(text: str) -> str:
    """Text in single quotes, as zsh's _arguments takes it."""
    for sign in "\\[]:":
        text = text.replace(sign, "\\" + sign)
    return text.replace("'", "'\\''")


def _short(action: argparse.Action) -> str:
    return _quoted((action.help or "").split(";")[0])


def _argument(action: argparse.Action) -> str:
    """An option or an argument for _arguments."""
    kind = "_files" if _is_file(action) else f"({' '.join(_values(action))})" if _values(action) else " "
    name = _quoted(str(action.metavar or action.dest))
    if not action.option_strings:
        return f"'{'::' if action.nargs == '?' else ':'}{name}:{kind}'"
    spelled = action.option_strings
    value = f":{name}:{kind}" if _takes(action) else ""
    if len(spelled) == 1:
        return f"'{spelled[0]}[{_short(action)}]{value}'"
    return f"'({' '.join(spelled)})'{{{','.join(spelled)}}}'[{_short(action)}]{value}'"


def _function(name: str) -> str:
    return "_" + "_".join(["pandoricchia", *name.split()])


def _zsh_group(name: str, made: argparse.ArgumentParser) -> Iterator[str]:
    yield f"{_function(name)}() {{"
    yield "  local context state state_descr line"
    yield "  typeset -A opt_args"
    yield "  _arguments -C \\"
    for action in _options(made):
        yield f"    {_argument(action)} \\"
    yield "    '1:verb:->verb' '*::argument:->rest'"
    yield "  case $state in"
    yield "  verb)"
    yield "    local -a verbs"
    helps = {choice.dest: choice.help for action in made._actions for choice in getattr(action, "_choices_actions", [])}
    yield "    verbs=("
    for verb in below(made):
        yield f"      '{verb}:{_quoted(str(helps[verb]))}'"
    yield "    )"
    yield "    _describe verb verbs ;;"
    yield "  rest)"
    yield "    case $words[1] in"
    for verb, inner in below(made).items():
        yield f"    {verb}) {_function(inner.prog.partition(' ')[2])} ;;"
    yield "    esac ;;"
    yield "  esac"
    yield "}"


def _zsh_verb(name: str, made: argparse.ArgumentParser) -> Iterator[str]:
    yield f"{_function(name)}() {{"
    arguments = [_argument(action) for action in made._actions]
    yield "  _arguments \\"
    yield " \\\n".join(f"    {argument}" for argument in arguments)
    yield "}"


def zsh() -> str:
    """A function for zsh, with what each verb and option does."""
    lines = ["#compdef pandoricchia", "# What zsh completes for pandoricchia, made from its parser: pandoricchia completion zsh"]
    for name, made in _verbs(parser()):
        lines += ["", *(_zsh_group(name, made) if below(made) else _zsh_verb(name, made))]
    lines += ["", 'if [[ $zsh_eval_context[-1] == loadautofunc ]]; then _pandoricchia "$@"; else compdef _pandoricchia pandoricchia; fi']
    return "\n".join(lines) + "\n"


def completion(options: argparse.Namespace) -> int:
    """The completion of a shell."""
    with Sink(options.output) as out:
        out.write((bash() if options.shell == "bash" else zsh()).encode())
    return 0
