"""What completes the words of the commands in bash, zsh and fish."""

import re
from dataclasses import dataclass
from typing import Tuple

from packaging.calls import Option

PROGRAM = "dbp"


@dataclass(frozen=True)
class Command:
    """A command of the shell: its name, its options, and for dbp its commands with the options of each."""

    name: str
    options: Tuple[Option, ...]
    words: Tuple[Tuple[str, Tuple[str, ...]], ...] = ()


def command_of_tool(call):
    """Returns the command of a tool."""
    return Command(f"dbp-{call.name}", call.options)


def command_of_program(listed):
    """Returns the command dbp; `listed` are the words of each of its commands."""
    names = dict.fromkeys(words[0] for words in listed)
    options = {name: [words[1] for words in listed if words[0] == name and words[1:]] for name in names}
    kept = {name: tuple(it for it in found if re.fullmatch("--[a-z-]+", it)) for name, found in options.items()}
    return Command(PROGRAM, (), tuple(kept.items()))


def quoted(text):
    """Returns a word of a shell."""
    return "'" + text.replace("'", "'\\''") + "'"


# bash


def function_name(command):
    """Returns the name of the function that completes a command."""
    return "_" + command.name.replace("-", "_")


def bash_words(words):
    """Returns how bash takes those of words that begin as the typed one; nothing if there are none."""
    return f"$(compgen -W {quoted(' '.join(words))} -- \"$2\")" if words else ""


def bash_of_program(command):
    """Returns the cases by which bash completes the words of dbp."""
    cases = [f"    {name}) words={quoted(' '.join(options))} ;;" for name, options in command.words if options]
    names = " ".join(name for name, _ in command.words)
    head = f"  local words=''\n  case $COMP_CWORD in 1) words={quoted(names)} ;; *) case ${{COMP_WORDS[1]}} in"
    return "\n".join([head, *cases, "  esac ;; esac", '  COMPREPLY=($(compgen -W "$words" -- "$2"))'])


def bash_of_tool(command):
    """Returns the cases by which bash completes the words of a tool."""
    lines = ['  case $3 in']
    for it in command.options:
        if it.value:
            lines.append(f"    {'|'.join(it.names)}) COMPREPLY=({bash_words(it.choices)}); return ;;")
    names = [name for it in command.options for name in it.names]
    lines += ["  esac", f"  case $2 in -*) COMPREPLY=({bash_words(names)}) ;; *) COMPREPLY=() ;; esac"]
    return "\n".join(lines)


def bash_text(command):
    """Returns the completion of a command for bash, which completes names of files where nothing else is known."""
    name = function_name(command)
    body = bash_of_program(command) if command.words else bash_of_tool(command)
    return f"{name}() {{\n{body}\n}}\ncomplete -o bashdefault -o default -F {name} {command.name}\n"


# zsh


def zsh_option(option):
    """Returns what zsh takes for an option."""
    about = re.sub(r"([\[\]:\\])", r"\\\1", option.about)
    values = f"({' '.join(option.choices)})" if option.choices else "_files" if option.is_path else " "
    value = re.sub(r"([:\\])", r"\\\1", option.value or "")
    many = "*" if option.is_many else ""
    return [quoted(f"{many}{name}[{about}]" + (f":{value}:{values}" if option.value else "")) for name in option.names]


def zsh_text(command):
    """Returns the completion of a command for zsh."""
    if not command.words:
        words = [word for it in command.options for word in zsh_option(it)] + [quoted("*:file:_files")]
        return f"#compdef {command.name}\n_arguments \\\n  " + " \\\n  ".join(words) + "\n"
    cases = [f"  {name}) compadd -- {' '.join(options)} ;;" for name, options in command.words if options]
    names = " ".join(name for name, _ in command.words)
    lines = [f"if (( CURRENT == 2 )); then\n  compadd -- {names}\n  return\nfi", "case $words[2] in", *cases, "esac"]
    return f"#compdef {command.name}\n" + "\n".join(lines) + "\n"


# fish


def fish_option(command, option):
    """Returns the line by which fish completes an option."""
    names = [f"-l {it[2:]}" if it.startswith("--") else f"-s {it[1:]}" for it in option.names]
    values = f" -x -a {quoted(' '.join(option.choices))}" if option.choices else ""
    values = values or (" -r" if option.is_path else " -x" if option.value else "")
    return f"complete -c {command.name} {' '.join(names)}{values} -d {fish_quoted(option.about)}"


def fish_quoted(text):
    """Returns a word of fish."""
    return "'" + text.replace("\\", "\\\\").replace("'", "\\'") + "'"


def fish_text(command):
    """Returns the completion of a command for fish."""
    lines = [fish_option(command, it) for it in command.options]
    names = " ".join(name for name, _ in command.words)
    lines += [f"complete -c {command.name} -f -n __fish_use_subcommand -a {quoted(names)}"] * bool(names)
    for name, options in command.words:
        condition = quoted(f"__fish_seen_subcommand_from {name}")
        lines += [f"complete -c {command.name} -n {condition} -l {it[2:]}" for it in options]
    return "".join(f"{line}\n" for line in lines)
