"""Bash completion out of what the commands print with --help: their options, the values that these name, and files."""
import re

from manual import Help

# values that are no files and no choice, so nothing can be offered
PLAIN = re.compile(r"[A-Z][A-Z:]*")
FILES = {"FILE", "DIR", "FOLDER", "OUT.trace"}
SCRIPT = """# Completion of {name}, made from its --help.
_{name}() {{
  local current=${{COMP_WORDS[COMP_CWORD]}} previous=${{COMP_WORDS[COMP_CWORD - 1]}}
  COMPREPLY=()
  case $previous in
{cases}  esac
  case $current in
    -*) mapfile -t COMPREPLY < <(compgen -W "{options}" -- "$current") ;;
    *) mapfile -t COMPREPLY < <(compgen -f -- "$current") ;;
  esac
}}
complete -o filenames -F _{name} {name}
"""
OF_FILES = "    {options}) mapfile -t COMPREPLY < <(compgen -f -- \"$current\"); return ;;\n"
OF_WORDS = "    {options}) mapfile -t COMPREPLY < <(compgen -W \"{words}\" -- \"$current\"); return ;;\n"
OF_NONE = "    {options}) return ;;\n"


def options_of(text):
    """Each option of a text of --help with its placeholder, or nothing."""
    found = {"--help": "", "--version": ""}
    for words, meaning in Help(text).entries:
        option = re.match(r"(--[a-z-]+)(?: (\S+))?", words)
        if meaning is not None and option:
            found[option[1]] = option[2] or ""
    return found


def completion(name, text):
    """The completion of a command whose --help is `text`."""
    options = options_of(text)
    files = [option for option, value in options.items() if value in FILES]
    choices = {option: value.split("|") for option, value in options.items() if "|" in value}
    plain = [option for option, value in options.items() if PLAIN.fullmatch(value) and value not in FILES]
    cases = OF_FILES.format(options="|".join(files)) if files else ""
    cases += "".join(OF_WORDS.format(options=option, words=" ".join(words)) for option, words in choices.items())
    cases += OF_NONE.format(options="|".join(plain)) if plain else ""
    return SCRIPT.format(name=name, cases=cases or "    '') ;;\n", options=" ".join(sorted(options)))
