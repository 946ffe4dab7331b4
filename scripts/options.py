#!/usr/bin/env python3
"""Writes what follows from the table of options: the completions, and the lists of options in the manual and in docs/COMMANDS.md.

The tables are options.rt and commands.rt of crates/option_values/src. Completions are written whole; in a page, what stands between a line that
names a list and the next line that ends one is. 'options.py --check' writes nothing, and fails where a file differs.
"""
import re
import sys
from pathlib import Path

ROOT = Path(__file__).resolve().parent.parent
TABLES = [ROOT / "crates/option_values/src" / name for name in ("options.rt", "commands.rt")]
TYPES = ROOT / "crates/option_values/src/option_row.rt"
WIDTH = 118
WRITTEN = "Written by scripts/options.py from the table of options."
ROW = re.compile(r"pub const (\w+): OptionRow = OptionRow \{(.*?)\n\};", re.DOTALL)
COMMAND = re.compile(r"pub const \w+: CommandRow = CommandRow \{(.*?)\n\};", re.DOTALL)
FIELD = re.compile(r'^    (\w+):\s*((?:"[^"]*"|[^"])*?),$', re.MULTILINE)


class Option:
    """A row: its name, how it is given, what its value is called and may be, and its help."""

    def __init__(self, fields, facilities):
        self.name, self.value, self.help = (fields[name].strip('"') for name in ("name", "value", "help"))
        form = re.fullmatch(r'Form::(\w+)(?:\("(.*)"\))?', fields["form"])
        self.form, self.default = form[1], form[2]
        kind = re.fullmatch(r"Kind::(\w+)(?:\((.*)\))?", fields["kind"])
        self.kind, said = kind[1], kind[2] or ""
        self.range = tuple(int(it) for it in said.replace("_", "").split(",")) if self.kind in ("Number", "Year") else None
        words = facilities if self.kind == "Facility" else said.strip('"') if self.kind == "Words" else ""
        self.words = [word for it in re.split(", | or ", words) if it for word in spread(it)]

    @property
    def is_placed(self):
        return self.form in ("Positional", "Several")

    @property
    def is_listener(self):
        """Whether it is one of those of which `serve` needs one at least."""
        return self.form == "List" and self.kind != "Network"

    @property
    def has_value(self):
        return self.form != "Flag"

    @property
    def long(self):
        return f"--{self.name}"

    @property
    def short(self):
        """What it does, in a few words: its help up to what its value may be."""
        return re.split(r": |; | \[| \(|, such as", self.help)[0]

    @property
    def completed(self):
        """What completes its value: 'file', 'folder', 'text' or 'words ..'."""
        return "words " + " ".join(self.words) if self.words else {"File": "file", "Folder": "folder"}.get(self.kind, "text")


def spread(word):
    """The words that 'local0 to local7' stands for; any other is one."""
    ends = re.fullmatch(r"([a-z]+)(\d) to \1(\d)", word)
    return [f"{ends[1]}{n}" for n in range(int(ends[2]), int(ends[3]) + 1)] if ends else [word]


def read():
    """The commands in the order of the help: name, what it does, options."""
    text = "".join(table.read_text() for table in TABLES)
    facilities = re.search(r'Kind::Facility => String::from_str\(\s*alloc,\s*"(.*?)"', TYPES.read_text(), re.DOTALL)[1]
    facilities = re.sub(r"\\\n\s*", "", facilities)
    rows = {name: Option(dict(FIELD.findall(body + "\n")), facilities) for name, body in ROW.findall(text)}
    commands = []
    for body in COMMAND.findall(text):
        name, about = (re.search(rf'{field}:\s*"([^"]*)"', body)[1] for field in ("name", "about"))
        options = re.findall(r"\w+", re.search(r"options: &\[(.*?)\]", body, re.DOTALL)[1])
        commands.append((name, about, [rows[it] for it in options]))
    unused = set(rows.values()) - {it for _, _, options in commands for it in options}
    if len(commands) < 2 or unused:
        sys.exit(f"no command has {[it.name for it in unused]}" if unused else f"{TABLES[1]} has no rows")
    return commands


def wrapped(front, words, back, width=WIDTH):
    """Words on as many lines as they need."""
    lines = [front]
    for word in words:
        if len(lines[-1]) + len(word) + len(back) >= width and lines[-1] != front:
            lines.append(front)
        lines[-1] += ("" if lines[-1] == front else " ") + word
    return [line + back for line in lines]


# ---- bash

def arms(pairs, indent):
    """Arms of a `case`, one for each answer: the patterns that have it."""
    answers = {}
    for pattern, answer in pairs:
        answers.setdefault(answer, []).append(pattern)
    lines = []
    for answer, patterns in answers.items():
        alternatives = [f"{it} |" for it in patterns[:-1]] + [f"{patterns[-1]})"]
        *above, last = wrapped(indent, alternatives, "", WIDTH - 2)
        lines += [f"{line} \\" for line in above] + [last]
        lines += wrapped(f'{indent}    echo "', answer.split(), '"')
        lines.append(f"{indent}    ;;")
    return lines


BASH = """\
_syslogbox() {
    local command=${COMP_WORDS[1]} word=$2 previous=$3 kind="" action="" words=""
    local commands="COMMANDS"
    if [ "$COMP_CWORD" -eq 1 ]; then
        words="$commands --help --version"
    elif [ "$command" = help ]; then
        words=$commands
    else
        kind=$(_syslogbox_value "$command" "$previous")
        if [ -z "$kind" ]; then
            words=$(_syslogbox_options "$command")
            kind=$(_syslogbox_place "$command" "$((COMP_CWORD - 1))")
        fi
    fi
    case $kind in
        words*) words="$words ${kind#words}" ;;
        file) action=-f ;;
        folder) action=-d ;;
    esac
    if [ -n "$action" ]; then compopt -o filenames 2> /dev/null; fi
    mapfile -t COMPREPLY < <(compgen $action -W "$words" -- "$word")
}

complete -F _syslogbox syslogbox
"""


def placed(name, options):
    """What completes the values by their places: all of one kind may stand anywhere among options."""
    at = [it.completed for it in options if it.is_placed]
    if len(set(at)) == 1:
        at, patterns = at[:1], [f'"{name} "*']
    else:
        patterns = [f'"{name} {i}"' for i, _ in enumerate(at, 1)]
    return [pair for pair in zip(patterns, at) if pair[1] != "text"]


def bash(commands):
    options = [(name, " ".join([*(it.long for it in options if not it.is_placed), "--help"])) for name, _, options in commands]
    values = [(f'"{name} {it.long}"', it.completed) for name, _, options in commands for it in options
              if it.has_value and not it.is_placed]
    places = [pair for name, _, options in commands for pair in placed(name, options)]
    lines = ["# Completion of syslogbox in bash.", f"# {WRITTEN}"]
    for what, name, of, pairs in [
            ("The options of a command.", "options", '"$1"', options),
            ("What the value of a command's option is; nothing where it takes none.", "value", '"$1 $2"', values),
            ("What a command's value by its place is.", "place", '"$1 $2"', places)]:
        lines += ["", f"# {what}", f"_syslogbox_{name}() {{", f"    case {of} in", *arms(pairs, " " * 8), "    esac", "}"]
    names = " ".join([*(name for name, _, _ in commands), "help"])
    return "\n".join(lines) + "\n\n" + BASH.replace("COMMANDS", names)


# ---- zsh

def zsh_told(text):
    return re.sub(r"([\[\]:])", r"\\\1", text).replace("'", "'\\''")


def zsh_action(option):
    if option.words:
        return f"({' '.join(option.words)})"
    return {"File": "_files", "Folder": "_files -/"}.get(option.kind, "")


def zsh_option(option, place):
    value = zsh_told(option.value)
    action = zsh_action(option)
    end = f":{value}:{action}" if action else f":{value}"
    if option.is_placed:
        return f"'{'*' if option.form == 'Several' else place}{end}'"
    told = f"{option.long}{'=' if option.has_value else ''}[{zsh_told(option.short)}]"
    return f"'{'*' if option.form == 'List' else ''}{told}{end if option.has_value else ''}'"


def zsh(commands):
    told = [*((name, about) for name, about, _ in commands), ("help", "Print the help of a command")]
    lines = ["#compdef syslogbox", "# Completion of syslogbox in zsh.", f"# {WRITTEN}", "",
             "local curcontext=$curcontext state line", "local -a commands", "commands=(",
             *(f"    '{name}:{about}'" for name, about in told), ")", "",
             "_arguments -C \\", "    '(- *)'{-h,--help}'[Print help]' \\", "    '(- *)'{-V,--version}'[Print version]' \\",
             "    '1:command:->command' \\", "    '*::argument:->argument'", "", "case $state in",
             "    command) _describe command commands ;;", "    argument)",
             "        curcontext=${curcontext%:*}-$words[1]:", "        case $words[1] in"]
    for name, _, options in commands:
        at = [it for it in options if it.is_placed]
        each = [zsh_option(it, 0) for it in options if not it.is_placed] + ["'(-h --help)'{-h,--help}'[Print help]'"]
        each += [zsh_option(it, i) for i, it in enumerate(at, 1)]
        lines += [f"            {name})", "                _arguments \\"]
        lines += [f"                    {it} \\" for it in each[:-1]] + [f"                    {each[-1]}", "                ;;"]
    lines += ["            help) _describe command commands ;;", "        esac", "        ;;", "esac"]
    return "\n".join(lines) + "\n"


# ---- fish

def fish_told(text):
    return text.replace("'", "\\'")


def fish_value(option):
    if not option.has_value:
        return ""
    if option.words:
        return f" -x -a '{' '.join(option.words)}'"
    return {"File": " -r -F", "Folder": " -x -a '(__fish_complete_directories)'"}.get(option.kind, " -x")


def fish(commands):
    """A row of several commands is one line."""
    of = {}
    for name, _, options in commands:
        for option in options:
            of.setdefault(option, []).append(name)
    lines = ["# Completion of syslogbox in fish.", f"# {WRITTEN}", "", "complete -c syslogbox -f",
             "complete -c syslogbox -s h -l help -d 'Print help'",
             "complete -c syslogbox -n __fish_use_subcommand -s V -l version -d 'Print version'", ""]
    for name, about in [*((name, about) for name, about, _ in commands), ("help", "Print the help of a command")]:
        lines.append(f"complete -c syslogbox -n __fish_use_subcommand -a {name} -d '{about}'")
    lines.append("")
    for option, names in of.items():
        front = f'complete -c syslogbox -n "__fish_seen_subcommand_from {" ".join(names)}"'
        if not option.is_placed:
            lines.append(f"{front} -l {option.name}{fish_value(option)} -d '{fish_told(option.short)}'")
        elif option.completed != "text":
            line = front + fish_value(option).replace(" -r", "").replace(" -x", "")
            lines += [line] if line not in lines else []
    lines.append(f'complete -c syslogbox -n "__fish_seen_subcommand_from help" -a "{" ".join(name for name, _, _ in commands)}"')
    return "\n".join(lines) + "\n"


# ---- pages

def roff(text):
    return text.replace("-", "\\-")


def roff_value(option):
    return " : Ns Ar ".join(option.value.split(":"))


def roff_flag(option):
    return f"Fl \\-{roff(option.name)}" + (f" Ar {roff_value(option)}" if option.has_value else "")


def roff_of(option, conditions):
    """How a synopsis has an option: several that name listeners, or that are conditions, are one word."""
    if option in conditions:
        return ".Op Ar conditions"
    if option.is_placed:
        return f".Ar {option.value}{' ...' if option.form == 'Several' else ''}"
    if option.is_listener:
        return ".Ar listener ..."
    return f".Op {roff_flag(option)}{' ...' if option.form == 'List' else ''}"


def synopsis(command, selecting):
    """What a command takes: `.Ar` for what has to be given, `.Op` for what may be. One with a list of `select` has its conditions."""
    options = command[2]
    lists = {it for it in selecting if it.form == "List"}
    conditions = {it for it in selecting if it.name != "quiet"} if lists & set(options) else set()
    return list(dict.fromkeys(roff_of(option, conditions) for option in options))


def thousands(text):
    return re.sub(r"\d{4,}(?![\d:])", lambda it: f"{int(it[0]):,}", text)


def default_of(option):
    """Its default, of its form or as its help says."""
    told = re.search(r" \[default: (.*)\]", option.help)
    return option.default or (told[1] if told else "")


def meaning(option):
    return thousands(re.sub(r" \[default: .*\]", "", option.help))


def roff_list(options):
    lines = [".Bl -tag -width Ds"]
    for option in options:
        default = default_of(option)
        lines += [f".It {roff_flag(option)}", roff(meaning(option)) + "."]
        lines += [f"By default {roff(thousands(default))}."] if default else []
    return [*lines, ".El"]


def table(options):
    lines = ["| Option | Meaning | Default |", "|---|---|---|"]
    for option in options:
        value = f" {option.value.upper()}" if option.has_value else ""
        lines.append(f"| `{option.long}{value}` | {meaning(option)} | {thousands(default_of(option)) or 'off'} |")
    return lines


def lists(commands):
    """The lists by their names."""
    by = {name: (name, about, options) for name, about, options in commands}
    own = [it for it in by["serve"][2] if not it.is_placed]
    own = [it for it in own if it not in by["collect"][2]]
    wanted = {f"synopsis of {name}": synopsis(command, by["select"][2]) for name, command in by.items()}
    wanted["listeners of serve"] = roff_list([it for it in own if it.is_listener])
    wanted["options of serve"] = roff_list([it for it in own if not it.is_listener])
    wanted["table of serve"] = table([it for it in own if not it.is_listener])
    return wanted


def page(text, wanted):
    """A page with its lists: what stands between a line that names one and the next that ends it."""
    def found(it):
        return it[1] + "".join(f"{line}\n" for line in wanted[it[2]]) + it[4]
    return re.sub(r'((?:\.\\"|<!--) (\w+ of \w+), by scripts/options\.py(?: -->)?\n)((?:.*\n)*?)((?:\.\\"|<!--) end)', found, text)


def faults(commands, text):
    """Options whose bounds or default a page of the manual does not tell."""
    items = re.findall(r"^\.It (Fl .*)\n((?:(?!\.It |\.El).*\n)*)", text, re.MULTILINE)
    for name, _, options in commands:
        for option in (it for it in options if not it.is_placed):
            told = [body for head, body in items if f"Fl \\-{roff(option.name)}" in re.split(r" , | Ar .*? , ", head + " ")
                    or re.search(rf"Fl \\-{re.escape(roff(option.name))}(?![\w\\])", head)]
            numbers = [*map(str, option.range or ()), *([option.default] if option.default and option.default.isdigit() else [])]
            if not any(all(number in re.findall(r"\d+", body.replace(",", "")) for number in numbers) for body in told):
                yield f"the manual's items on {option.long} of {name} do not tell {numbers or 'it'}"


def main():
    check = sys.argv[1:] == ["--check"]
    if sys.argv[1:] and not check:
        sys.exit(__doc__)
    commands = read()
    wanted = lists(commands)
    files = {"completions/syslogbox.bash": bash(commands), "completions/_syslogbox": zsh(commands),
             "completions/syslogbox.fish": fish(commands)}
    pages = ["man/syslogbox.1", "man/syslogbox-serve.8", "docs/COMMANDS.md"]
    files.update({name: page((ROOT / name).read_text(), wanted) for name in pages})
    wrong = list(faults(commands, "".join(files[name] for name in pages[:2])))
    for name, text in files.items():
        if (ROOT / name).read_text() == text:
            continue
        if check:
            wrong.append(f"{name} is not what scripts/options.py writes")
        else:
            (ROOT / name).write_text(text)
            print(f"wrote {name}")
    for line in wrong:
        print(line)
    sys.exit(bool(wrong))


if __name__ == "__main__":
    main()
