"""Compares the manual page and the completions with what the program says of itself:
commands, options of each, arguments of each."""
import os
import re
import subprocess

TOP = os.path.dirname(os.path.dirname(os.path.dirname(os.path.abspath(__file__))))
MAN = os.path.join(TOP, "man")
HELP = "help"
OPTION = re.compile(r"^ +(?:-\w, )?--([\w-]+)", re.M)


def page(name):
    with open(os.path.join(MAN, name), encoding="utf-8") as file:
        return file.read()


def helped(binary):
    """The commands, each with its options and arguments, as `--help` has them."""
    def said(*words):
        return subprocess.run([binary, *words, "--help"], stdout=subprocess.PIPE, text=True, check=True).stdout

    listed = said().partition("Commands:\n")[2].partition("\n\n")[0]
    found = {}
    for command in re.findall(r"^  (\w+) ", listed, re.M):
        if command != HELP:
            text = said(command)
            usage = re.search(r"^Usage: iocm \w+(.*)", text, re.M)[1]
            arguments = re.findall(r"[<\[]([A-Z]+)[>\]]", usage.replace("[OPTIONS]", ""))
            found[command] = set(OPTION.findall(text)), arguments
    return found


def of_manual():
    """The same, by the synopsis of the manual page, whose options have to be described below it."""
    text = page("iocm.1")
    described = set(re.findall(r"^\.It (?:Fl \w , )?Fl -([\w-]+)", text, re.M))
    filters = set(re.findall(r"^\.It Fl -([\w-]+)", text.partition(".Ss Filters")[2].partition("\n.Sh")[0], re.M))
    synopsis = text.partition(".Sh SYNOPSIS\n")[2].partition(".Sh ")[0]
    found = {}
    for part in synopsis.split(".Nm\n")[1:]:
        command = re.match(r"\.Cm (\w+)", part)[1]
        own = set(re.findall(r"Fl -([\w-]+)", part)) | {HELP}
        arguments = " ".join(re.findall(r"^(?:\.Op |\.)Ar (.*)", part, re.M)).split()
        if "filters" in arguments:
            own |= filters
            arguments.remove("filters")
        found[command] = own & described, [name.upper() for name in arguments if name != "..."]
    found.pop(HELP)
    return found


def completed(binary, *words):
    """What the completion of bash offers for the last of these words."""
    asked = f'source "$1"; shift; COMP_WORDS=(iocm "$@"); COMP_CWORD=$#; _iocm; printf "%s\\n" "${{COMPREPLY[@]}}"'
    path = os.pathsep.join([os.path.dirname(binary), os.environ["PATH"]])
    how = {"cwd": TOP, "env": {**os.environ, "PATH": path}, "stdout": subprocess.PIPE, "text": True, "check": True}
    call = ["bash", "-c", asked, "bash", os.path.join(MAN, "iocm.bash"), *words]
    return set(subprocess.run(call, **how).stdout.split())


def of_bash(binary, commands):
    return {command: {word.lstrip("-") for word in completed(binary, command, "--")} for command in commands}


def of_zsh(commands):
    """By the text: the lists of options by name, and which of them each command takes."""
    text = page("_iocm")
    bodies = re.findall(r"^(\w+)=\((.*?)\)$", text, re.M | re.S)
    lists = {name: set(re.findall(r"--([\w-]+)(?=[\[,}])", body)) for name, body in bodies}
    found = {}
    for command, line in re.findall(r"^  (\w+)\) _arguments (.*) ;;$", text, re.M):
        named = [lists[name] for name in re.findall(r"\$(\w+)", line)]
        found[command] = set(re.findall(r"'--([\w-]+)\[", line)).union(*named)
    return {command: found.get(command, set()) for command in commands}


def of_fish(commands):
    """By the text: each line of an option says after which commands it is offered."""
    found = {command: {HELP} for command in commands}
    for after, option in re.findall(r"'__fish_seen_subcommand_from ([\w ]+)'(?: -s \w)? -l ([\w-]+)", page("iocm.fish")):
        for command in after.split():
            found[command].add(option)
    return found


def commands_offered(binary):
    """The commands that each completion offers first."""
    zsh = re.search(r"^commands=\((.*?)^\)", page("_iocm"), re.M | re.S)[1]
    return {
        "bash": {word for word in completed(binary, "") if not word.startswith("-")},
        "zsh": set(re.findall(r"'(\w+):", zsh)),
        "fish": set(re.findall(r"__fish_use_subcommand -f -a (\w+)", page("iocm.fish"))),
    }


def cases(binary):
    """Each comparison: its name, what the program says, and what the page says."""
    said, manual = helped(binary), of_manual()
    yield "commands of the manual page", set(said), set(manual)
    for shell, commands in commands_offered(binary).items():
        yield f"commands for {shell}", {*said, HELP}, commands
    shells = {"bash": of_bash(binary, said), "zsh": of_zsh(said), "fish": of_fish(said)}
    for command, (options, arguments) in said.items():
        yield f"arguments of {command} in the manual page", arguments, manual.get(command, (0, 0))[1]
        yield f"options of {command} in the manual page", options, manual.get(command, (0, 0))[0]
        for shell, of in shells.items():
            yield f"options of {command} for {shell}", options, of[command]
    listed = subprocess.run([binary, "explain"], stdout=subprocess.PIPE, text=True, check=True).stdout
    rules = {line.partition(":")[0] for line in listed.splitlines()}
    yield "rules for bash", {*rules, f"--{HELP}"}, completed(binary, "explain", "")
    yield "no file after the last one, for bash", set(), completed(binary, "show", "a deck", "")
    yield "a file after a filter's value, for bash", {"README.md"}, completed(binary, "show", "--path", "0.50", "READ")
    yield "no file for a filter's value, for bash", set(), completed(binary, "show", "--path", "READ")
