"""Completions for bash, zsh and fish, made of the helps. A command is (name, Help); mte_tool has commands of its own, {name: Help}."""

import shlex
from collections.abc import Iterator

from mte_scripts import helps
from mte_scripts.helps import Help

BASH = """\
# Made by scripts/package, of the helps.
{function}() {{
    local word=${{COMP_WORDS[COMP_CWORD]}} before=${{COMP_WORDS[COMP_CWORD - 1]}}
    [ "$before" != = ] || before=${{COMP_WORDS[COMP_CWORD - 2]}}
    [ "$word" != = ] || word=
    COMPREPLY=()
{body}}}
complete -o bashdefault -o default -F {function} {name}
"""


# the program is the first word that is no option and no option's value; bash has a `=` as a word of its own
BASH_PROGRAM = """\
local at=1
while [ "$at" -lt "$COMP_CWORD" ]; do
    case ${{COMP_WORDS[at]}} in
        --) at=$((at + 1)); break ;;
        {valued}) at=$((at + 2)); [ "${{COMP_WORDS[at - 1]}}" != = ] || at=$((at + 1)) ;;
        -*) at=$((at + 1)); [ "${{COMP_WORDS[at]}}" != = ] || at=$((at + 2)) ;;
        *) break ;;
    esac
done
if [ "$at" -lt "$COMP_CWORD" ]; then
    ! declare -F _command_offset >/dev/null || _command_offset "$at"
    return
fi
"""


def value_options(help_: Help) -> "list[str]":
    """The options whose value is the next word."""
    return [name for option in help_.options() if option.value and not option.joined for name in option.names]


def text_of(option: helps.Option, most: int = 70) -> str:
    """What a list of completions says of an option: the begin of what its help does."""
    text = option.text.split(";")[0].split(". ")[0].split(" [")[0]
    return text if len(text) <= most else text[:most].rsplit(" ", 1)[0] + " .."


def own_options(help_: Help) -> "list[str]":
    return [name for option in help_.options() for name in option.names]


# ---- bash

def bash_reply(words: str) -> str:
    return f'mapfile -t COMPREPLY < <(compgen {words} -- "$word")'


def bash_options(help_: Help, indent: int) -> str:
    """The value after an option, else the options; files where there is nothing else to say."""
    pad, lines, program = " " * indent, [], []
    if help_.runs_program():
        program = [
            f"{pad}{line}\n" for line in BASH_PROGRAM.format(valued=" | ".join(value_options(help_))).splitlines()
        ]
    for option in help_.options():
        if not option.value or option.joined:
            continue
        few = helps.choices(option)
        reply = bash_reply(f"-W {shlex.quote(' '.join(few))}") + "; return" if few else "return"
        lines.append(f"{pad}    {' | '.join(option.names)}) {reply} ;;\n")
    if lines:
        lines = [f"{pad}case $before in\n", *lines, f"{pad}esac\n"]
    names = shlex.quote(" ".join(own_options(help_)))
    lines.append(f"{pad}[[ $word != -* ]] || {{ {bash_reply(f'-W {names}')}; return; }}\n")
    if program:
        lines.append(f"{pad}{bash_reply('-A command')}\n")
    return "".join([*program, *lines])


def bash(name: str, help_: Help, commands: "dict[str, Help] | None" = None) -> str:
    function = "_" + name.replace("+", "x")
    if not commands:
        return BASH.format(function=function, name=name, body=bash_options(help_, 4))
    words = shlex.quote(" ".join([*(term for term, _ in help_.terms("COMMANDS")), *own_options(help_)]))
    body = f'    if [ "$COMP_CWORD" = 1 ]; then {bash_reply(f"-W {words}")}; return; fi\n    case ${{COMP_WORDS[1]}} in\n'
    for command, its in commands.items():
        body += f"        {command})\n{bash_options(its, 12)}            ;;\n"
    body += f"        help) {bash_reply(f'-W {shlex.quote(chr(32).join(commands))}')} ;;\n    esac\n"
    return BASH.format(function=function, name=name, body=body)


# ---- zsh

def zsh_text(text: str) -> str:
    return text.translate({ord(sign): "\\" + sign for sign in "[]:\\"})


def zsh_arguments(help_: Help, rest: str = "*:file:_files") -> str:
    """The words of _arguments for a command."""
    words = ["-s", "-S"]
    for option in help_.options():
        few, value, equals = helps.choices(option), "", "=-" if option.joined else ""
        if option.value:
            action = f"({' '.join(few)})" if few else "_files" if helps.takes_file(option) else " "
            value = f"{'::' if option.joined else ':'}{option.value.lower()}:{action}"
        apart = f"({' '.join(option.names)})" if len(option.names) > 1 else ""
        words += [f"{apart}{name}{equals}[{zsh_text(text_of(option))}]{value}" for name in option.names]
    words += ["(-)1:program: _command_names -e", "*::words of the program: _normal"] if help_.runs_program() else [rest]
    return " ".join(shlex.quote(word) for word in words if word)


def zsh(scripts: "dict[str, Help]", name: str, help_: Help, commands: "dict[str, Help]") -> str:
    """One file for all commands."""
    out = [f"#compdef {' '.join([name, *scripts])}", "# Made by scripts/package, of the helps.", "local -a own", "case $service in"]
    for script, its in scripts.items():
        out.append(f"    {script}) _arguments {zsh_arguments(its)} ;;")
    described = " ".join(shlex.quote(f"{term}:{text}") for term, text in help_.terms("COMMANDS"))
    out += [f"    {name})", f"        own=({described})", "        if (( CURRENT == 2 )); then"]
    out += ["            _describe -t commands command own", f"            compadd -- {' '.join(own_options(help_))}", "            return"]
    out += ["        fi", "        shift words", "        (( CURRENT-- ))", "        case $words[1] in"]
    out += [f"            {command}) _arguments {zsh_arguments(its, '')} ;;" for command, its in commands.items()]
    out += ["            help) _describe -t commands command own ;;", "        esac", "        ;;", "esac"]
    return "\n".join(out) + "\n"


# ---- fish

def fish_options(name: str, help_: Help, condition: str = "") -> "Iterator[str]":
    for option in help_.options():
        words = ["complete", "-c", name, *(["-n", condition] if condition else [])]
        for each in option.names:
            words += ["-l", each[2:]] if each.startswith("--") else ["-s", each[1:]]
        few = helps.choices(option)
        if few:
            words += ["-x", "-a", " ".join(few)]
        elif option.value and not option.joined:
            words += ["-r", "-F"] if helps.takes_file(option) else ["-x"]
        if option.text:
            words += ["-d", text_of(option)]
        yield " ".join(fish_word(word) for word in words)


def fish_word(word: str) -> str:
    return word if all(sign.isalnum() or sign in "-_+" for sign in word) else "'" + word.replace("\\", "\\\\").replace("'", "\\'") + "'"


def fish(name: str, help_: Help, commands: "dict[str, Help] | None" = None) -> str:
    lines = ["# Made by scripts/package, of the helps."]
    if commands:
        lines.append(f"complete -c {name} -f")
        for term, text in help_.terms("COMMANDS"):
            lines.append(f"complete -c {name} -n __fish_use_subcommand -a {term} -d {fish_word(text)}")
        lines += fish_options(name, help_, "__fish_use_subcommand")
        for command, its in commands.items():
            lines += fish_options(name, its, f"__fish_seen_subcommand_from {command}")
    else:
        lines += fish_options(name, help_)
        if help_.runs_program():
            lines.append(f"complete -c {name} -x -a '(__fish_complete_subcommand -- {' '.join(value_options(help_))})'")
    return "\n".join(lines) + "\n"
