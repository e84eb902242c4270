"""Writes the completion of btx for a shell: its words, the options of each with their values, and files. Of a checkout
. <(bin/btx completion bash) loads it, in zsh likewise after compinit; bin/btx completion fish | source does so in fish. An install keeps
all three, and says by which line a shell loads its own where it doesn't look by itself."""
import argparse
from collections.abc import Iterator, Sequence

SUMMARY = "the completion of a shell: bash, zsh or fish"
FILES, FOLDERS, NOTHING = "files", "folders", "nothing"
# What can stand for a value of a name: files, folders, or some that are usual. Of any other name nothing is known.
Values = str | tuple[str, ...]
VALUES: dict[str, Values] = {
    **dict.fromkeys(("FILE", "MODULE", "PAGE", "SCRIPT", "DRAWING", "RECORDING", "A", "B"), FILES), "FOLDER": FOLDERS, "OUT": FOLDERS,
    "BITS": ("1200", "2400", "9600"), "TIMES": ("1", "2", "4"), "PHASE": ("0", "1", "2", "3", "4", "5"),
}


class Option:
    """An option of a word: its names, what it does, the name of its value if it has one, what can stand there, and whether it may stand
    several times."""

    def __init__(self, action: argparse.Action) -> None:
        self.short = [name for name in action.option_strings if not name.startswith("--")]
        self.long = [name for name in action.option_strings if name.startswith("--")]
        self.help = action.help or ""
        self.value = None if action.nargs == 0 else action.metavar or "VALUE"
        self.values = values_of(action)
        self.is_repeated = isinstance(action, argparse._AppendAction)


class Word:
    """A word: what it does, its options, and the values of what stands after it."""

    def __init__(self, name: str, summary: str, parser: argparse.ArgumentParser) -> None:
        actions = [action for action in parser._actions if not isinstance(action, argparse._HelpAction)]
        self.name, self.summary = name, summary
        self.options = [Option(action) for action in actions if action.option_strings]
        self.after = [(action.metavar or action.dest, values_of(action)) for action in actions if not action.option_strings]

    def long(self) -> list[str]:
        return [name for option in self.options for name in option.long] + ["--help"]

    def kind(self) -> Values:
        """What can stand after it."""
        kinds = [values for _, values in self.after if values != NOTHING]
        return kinds[0] if kinds else NOTHING


def values_of(action: argparse.Action) -> Values:
    """What can stand for the value of an option or of a name."""
    return tuple(action.choices) if action.choices else VALUES.get(str(action.metavar or action.dest), NOTHING)


def table(parser: argparse.ArgumentParser) -> list[Word]:
    """All words, of the parser that reads them."""
    words, = (action for action in parser._actions if isinstance(action, argparse._SubParsersAction))
    summaries = {choice.dest: choice.help or "" for choice in words._choices_actions}
    return [Word(name, summaries[name], one) for name, one in words.choices.items()]


def filled(text: str, **parts: str) -> str:
    """A text with parts in the places of their names."""
    for name, part in parts.items():
        text = text.replace(f"@{name}@", part)
    return text


def bash_values(values: Values) -> str | None:
    """The words by which compgen makes values."""
    return {FILES: "-f", FOLDERS: "-d", NOTHING: None}[values] if isinstance(values, str) else f'-W "{" ".join(values)}"'


def bash_reply(values: Values) -> str:
    made = bash_values(values)
    return f'_btx_reply {made} -- "$word"' if made else ":"


BASH = """# The completion of bash for btx: its words, the options of each with their values, and files.
_btx_reply() { compopt -o filenames 2> /dev/null; mapfile -t COMPREPLY < <(compgen "$@"); }
_btx() {
    local word=${COMP_WORDS[COMP_CWORD]} before=${COMP_WORDS[COMP_CWORD-1]} words="@words@"
    COMPREPLY=()
    if [ "$COMP_CWORD" -eq 1 ]; then
        mapfile -t COMPREPLY < <(compgen -W "$words help --help --version" -- "$word")
        # Beside words a folder has its slash here, so that none is taken for a word; without, the shell quotes names and gives slashes.
        local slash=/ count=${#COMPREPLY[@]}
        [ "$count" -gt 0 ] || { slash=; compopt -o filenames 2> /dev/null; }
        mapfile -t -O "$count" COMPREPLY < <(compgen -f -X '!*.btx' -- "$word"; compgen -d -S "$slash" -- "$word")
        return
    fi
    case ${COMP_WORDS[1]}:$before in
@options@
    esac
    case ${COMP_WORDS[1]}:$word in
        help:*) _btx_reply -W "$words" -- "$word" ;;
@after@
    esac
}
complete -F _btx btx
"""


def bash(words: Sequence[Word]) -> str:
    """The completion of bash."""
    options, after = [], []
    for word in words:
        for option in (option for option in word.options if option.value):
            names = " | ".join(f"{word.name}:{name}" for name in option.short + option.long)
            options.append(f"        {names}) {bash_reply(option.values)}; return ;;")
        after.append(f'        {word.name}:-*) _btx_reply -W "{" ".join(word.long())}" -- "$word" ;;')
        after.append(f"        {word.name}:*) {bash_reply(word.kind())} ;;")
    return filled(BASH, words=" ".join(word.name for word in words), options="\n".join(options), after="\n".join(after))


def quoted(text: str, signs: str = "") -> str:
    """A text in single quotes, in which some signs have a backslash before them."""
    for sign in "\\" + signs:
        text = text.replace(sign, "\\" + sign)
    return "'" + text.replace("'", "'\\''") + "'"


def zsh_values(values: Values) -> str:
    """The action of _arguments for values."""
    return {FILES: "_files", FOLDERS: "_files -/", NOTHING: " "}[values] if isinstance(values, str) else f"({' '.join(values)})"


def zsh_option(option: Option) -> str:
    """The specification of an option, for each of its names."""
    value = f":{option.value}:{zsh_values(option.values)}" if option.value else ""
    again = "*" if option.is_repeated else ""
    described = f"{quoted('[' + option.help.replace('[', '(').replace(']', ')') + ']', ':')[1:-1]}"
    return " ".join(f"'{again}{name}{described}{value}'" for name in option.short + option.long)


def zsh_word(word: Word) -> str:
    after = " ".join(f"'*:{name}:{zsh_values(values)}'" for name, values in word.after[:1])
    options = " ".join([*map(zsh_option, word.options), "'--help[what the word takes]'"])
    return f"        {word.name}) _arguments {options} {after} ;;"


ZSH = """#compdef btx
# The completion of zsh for btx: its words, the options of each with their values, and files.
_btx() {
  local context state state_descr line
  typeset -A opt_args
  local -a known
  known=(
@known@
  )
  _arguments -C '(- *)--help[the words]' '(- *)--version[the version]' '1: :->word' '*:: :->after' && return
  case $state in
    word) _describe word known; _files -g '*.btx' ;;
    after)
      case $words[1] in
        help) _describe word known ;;
@after@
      esac ;;
  esac
}
if [ "$funcstack[1]" = _btx ]; then _btx "$@"; else compdef _btx btx; fi
"""


def zsh(words: Sequence[Word]) -> str:
    """The completion of zsh."""
    known = "\n".join(f"    {quoted(word.name + ':' + word.summary.replace(':', ','))}" for word in words)
    return filled(ZSH, known=known, after="\n".join(map(zsh_word, words)))


def fish_values(values: Values) -> str:
    """The words by which complete takes values."""
    return {FILES: "-r -F", FOLDERS: "-x -a '(__fish_complete_directories)'", NOTHING: "-x"}[values] if isinstance(values, str) else (
        f"-x -a {quoted(' '.join(values))}"
    )


def fish_word(word: Word) -> Iterator[str]:
    """The lines of a word: itself, each option, and what stands after it."""
    seen = f"complete -c btx -n '__fish_seen_subcommand_from {word.name}'"
    yield f"complete -c btx -n __fish_use_subcommand -a {word.name} -d {quoted(word.summary)}"
    for option in word.options:
        names = " ".join([f"-s {name[1:]}" for name in option.short] + [f"-l {name[2:]}" for name in option.long])
        yield " ".join(filter(None, [seen, names, fish_values(option.values) if option.value else "", "-d", quoted(option.help)]))
    if word.kind() == FILES:
        yield f"{seen} -F"
    elif word.kind() != NOTHING:
        yield f"{seen} {fish_values(word.kind())}"


def fish(words: Sequence[Word]) -> str:
    """The completion of fish."""
    names = " ".join(word.name for word in words)
    lines = ["# The completion of fish for btx: its words, the options of each with their values, and files.", "complete -c btx -f"]
    lines += [f"complete -c btx -n '__fish_seen_subcommand_from {names}; or __fish_use_subcommand' -l help -d 'what it takes'"]
    lines += ["complete -c btx -n __fish_use_subcommand -l version -d 'the version'"]
    lines += ["complete -c btx -n __fish_use_subcommand -k -a '(__fish_complete_suffix .btx)'"]
    lines += ["complete -c btx -n __fish_use_subcommand -a help -d 'what a word takes'"]
    lines += [f"complete -c btx -n '__fish_seen_subcommand_from help' -a '{names}'"]
    return "\n".join([*lines, *(line for word in words for line in fish_word(word))]) + "\n"


SHELLS = {"bash": bash, "zsh": zsh, "fish": fish}


def text_of(shell: str, parser: argparse.ArgumentParser) -> str:
    return SHELLS[shell](table(parser))


def arguments(parser: argparse.ArgumentParser) -> None:
    parser.add_argument("shell", metavar="SHELL", choices=tuple(SHELLS))


def run(_: object, options: argparse.Namespace) -> int:
    print(text_of(options.shell, options.parser), end="")
    return 0
