"""The completions of bash, zsh and fish offer the commands and the options that `--help` lists, and no others."""
import re
import subprocess

from results import ROOT, lacking, run

FOLDER = ROOT / "completions"
OPTION = re.compile(r"--[a-z][a-z-]*")
# one arm of a `case` on commands
ARM = re.compile(r"^ *([a-z]+(?: \| [a-z]+)*)\)(.*?);;", re.MULTILINE | re.DOTALL)


def help_of(program, *words):
    """The help of the program, on standard error, or that of a command, on standard output."""
    done = subprocess.run([program, *words, "--help"], capture_output=True, text=True)
    return done.stdout or done.stderr


def listed(program):
    """The options that `--help` lists, by command, but for `--version`, which every command has."""
    commands = re.findall(r"^  ([a-z]+) ", help_of(program).split("Commands:")[1].split("\n\n")[0], re.MULTILINE)
    options = {name: set(re.findall(r"^ +(?:-\w, )?(--[a-z-]+)", help_of(program, name), re.MULTILINE)) - {"--version"}
               for name in commands if name != "help"}
    return {**options, "help": set()}


def of_bash(*words):
    """What bash offers after these words."""
    script = ('. "$0"; COMP_WORDS=("$@"); COMP_CWORD=$(($# - 1)); '
              '_syslogbox syslogbox "${COMP_WORDS[COMP_CWORD]}" "${COMP_WORDS[COMP_CWORD - 1]}"; printf "%s\\n" "${COMPREPLY[@]}"')
    done = subprocess.run(["bash", "-c", script, str(FOLDER / "syslogbox.bash"), "syslogbox", *words], capture_output=True, text=True)
    return set(done.stdout.split())


def of_zsh(text):
    """The options of each command, and the commands: those of the `case` on commands, and the array."""
    arms = ARM.findall(text.split("case $words[1] in")[1])
    commands = set(re.findall(r"^    '([a-z]+):", text, re.MULTILINE))
    return {name: set(OPTION.findall(arm)) for names, arm in arms for name in names.split(" | ")}, commands


def of_fish(text):
    """The options of each command, and the commands, in lines of `complete`."""
    variables, options, commands = {}, {}, set()
    for name, words in re.findall(r"^set -l (\w+) ((?:.|\\\n)*)$", text, re.MULTILINE):
        variables[f"${name}"] = [word for it in words.replace("\\\n", " ").split() for word in variables.get(it, [it])]
    for line in text.splitlines():
        commands.update(re.findall(r"-n __fish_use_subcommand -a (\S+)", line))
        seen, option = re.search(r'seen_subcommand_from ([^"]*)"', line), re.search(r" -l (\S+)", line)
        for word in seen[1].split() if seen and option else []:
            for name in variables.get(word, [word]):
                options.setdefault(name, {"--help"}).add(f"--{option[1]}")
    return {**{name: {"--help"} for name in commands - {"help"}}, "help": set(), **options}, commands


def completions(program, results):
    wanted = listed(program)
    results.check("--help lists commands and options", len(wanted) > 8 and "--framing" in wanted["check"], str(wanted))
    results.check("bash: the commands", of_bash("") == {*wanted, "--help", "--version"}, str(of_bash("")))
    for name, options in wanted.items():
        results.check(f"bash: the options of {name}", {it for it in of_bash(name, "--") if it != "--"} == options, str(of_bash(name, "--")))
    results.check("bash: help of a command", of_bash("help", "") == set(wanted), str(of_bash("help", "")))
    results.check("bash: files for merge", "README.md" in of_bash("merge", str(ROOT / "READ")).pop(), "")
    values(program, results)
    for shell, file, read in [("zsh", "_syslogbox", of_zsh), ("fish", "syslogbox.fish", of_fish)]:
        found, commands = read((FOLDER / file).read_text())
        results.check(f"{shell}: the commands", commands == set(wanted), str(commands))
        for name, options in wanted.items():
            results.check(f"{shell}: the options of {name}", found.get(name) == options, str(found.get(name)))
        if lacking(shell):
            results.skip(f"{shell} reads its file", f"there is no {shell}")
        else:
            status, said = run([shell, "-n", str(FOLDER / file)])
            results.check(f"{shell} reads its file", status == 0, said)


def values(program, results):
    """Each value that bash offers is one that the program takes, and there are some."""
    for option in ["--facility", "--severity", "--up-to", "--framing"]:
        offered = of_bash("send", option, "")
        taken = {word for word in offered if subprocess.run([program, "send", option, word, "x"], capture_output=True).returncode == 0}
        results.check(f"bash: the values of {option}", len(offered) > 1 and taken == offered, str(offered - taken))
    for name, option in [("check", "--framing"), ("convert", "--to")]:
        offered = of_bash(name, option, "")
        words = [[program, name, option, word] for word in offered]
        taken = [subprocess.run(it, input=b"", capture_output=True).returncode != 2 for it in words]
        results.check(f"bash: the values of {option} of {name}", len(offered) > 1 and all(taken), str(offered))
