"""What an installed `yampa` brings besides: a man page made of the help texts, completions for three shells, and syntax files."""
import json
import re
import subprocess
from pathlib import Path

from model.trees import (
    EXPRESSION_FORMS,
    EXPRESSION_SUGAR,
    EXPRESSION_WORDS,
    NETWORK_FORMS,
    NETWORK_SUGAR,
    NETWORK_SUGAR_WORDS,
    NETWORK_WORDS,
    TYPE_FORMS,
    TYPE_WORDS,
)
from workbench.advising import FILES, tools
from workbench.ending import UNREADABLE, Refused

TOOL = Path(__file__).resolve().parents[1] / "tool"
OPTION = re.compile(r"^ +((?:-\w, )?)(--[a-z][a-z-]*)", re.M)
# The first word of a file, behind comments, as vim looks for it.
FIRST_WORD = r"\%^\%(\s*\%(;.*\)\=\n\)*\s*\%(yampa\|laws\)\s"
HEADER = ["yampa", "laws", "input", "step", "at", "forward", "backward", "col"]


def help_of(command: list[str]) -> str:
    ran = subprocess.run(command, capture_output=True, text=True, timeout=60, check=False)
    if ran.returncode:
        raise Refused(f"{' '.join(map(str, command))}: no help: {ran.stderr.strip()}", UNREADABLE)
    return ran.stdout


def commands() -> list[str]:
    """The commands that the program itself has."""
    return [name for name in FILES if name not in tools()]


def all_helps(program: Path) -> dict[str, str]:
    """The help of the program, whose name is empty, of its commands and of the tools."""
    helps = {"": help_of([str(program), "--help"])}
    helps |= {name: help_of([str(program), name, "--help"]) for name in commands()}
    return helps | {name: help_of([str(TOOL), name, "--help"]) for name in tools()}


def pages(helps: dict[str, str]) -> dict[str, str]:
    """The files by their places below the prefix."""
    return {
        "share/man/man1/yampa.1": man_page(helps),
        "share/bash-completion/completions/yampa": bash(helps),
        "share/zsh/site-functions/_yampa": zsh(helps),
        "share/fish/vendor_completions.d/yampa.fish": fish(helps),
        "share/vim/vimfiles/syntax/yampa.vim": vim(),
        "share/vim/vimfiles/ftdetect/yampa.vim": f"autocmd BufRead,BufNewFile * if search('{FIRST_WORD}', 'cnw') | setfiletype yampa | endif\n",
        "share/yampa/yampa.tmLanguage.json": text_mate(),
    }


def abouts(helps: dict[str, str]) -> dict[str, str]:
    """What each command and each tool does, in a line."""
    return {name: helps[name].split("\n", 1)[0] for name in commands()} | {name: about for name, about in tools().items() if name in helps}


def options(text: str) -> list[str]:
    """The long options that a help names, and `--help`."""
    return sorted({found[1] for found in OPTION.findall(text)} | {"--help"})


# ---- the man page


def roff(text: str) -> str:
    """A text as it stands, for a man page."""
    lines = text.replace("\\", "\\e").replace("-", "\\-").splitlines()
    return "\n".join("\\&" + line if line[:1] in (".", "'") else line for line in lines)


def man_page(helps: dict[str, str]) -> str:
    first, *rest = helps[""].split("\n")
    parts = [
        '.TH YAMPA 1 "" "Yampa workbench" "User commands"',
        f".SH NAME\nyampa \\- {roff(first.lower().rstrip('.'))}",
        ".SH SYNOPSIS\n\\fByampa\\fR \\fICOMMAND\\fR [\\fIWORD\\fR ..]",
        section("SH", "DESCRIPTION", "\n".join(rest).strip("\n")),
        ".SH COMMANDS",
        *[section("SS", f"yampa {name}", helps[name]) for name in commands()],
        ".SH TOOLS\nTools beside these commands. They are not proved.",
        *[section("SS", f"yampa {name}", helps[name]) for name in tools() if name in helps],
    ]
    return "\n".join(parts) + "\n"


def section(macro: str, title: str, text: str) -> str:
    return f'.{macro} "{roff(title)}"\n.nf\n{roff(text)}\n.fi'


# ---- completions


def bash(helps: dict[str, str]) -> str:
    cases = "\n".join(f"        {name}) words='{' '.join(options(helps[name]))}' ;;" for name in abouts(helps))
    return f"""# Completion of yampa for bash.
_yampa() {{
    local words current=${{COMP_WORDS[COMP_CWORD]}}
    if [ "$COMP_CWORD" = 1 ]; then
        COMPREPLY=($(compgen -W '{' '.join(abouts(helps))} help --help --version' -- "$current"))
        return
    fi
    case ${{COMP_WORDS[1]}} in
{cases}
        help) COMPREPLY=($(compgen -W '{' '.join(abouts(helps))}' -- "$current")); return ;;
    esac
    case $current in
        -*) COMPREPLY=($(compgen -W "$words" -- "$current")) ;;
        *) COMPREPLY=($(compgen -f -- "$current")) ;;
    esac
}}
complete -o filenames -F _yampa yampa
"""


def quoted(text: str) -> str:
    return "'" + text.replace("'", "'\\''") + "'"


def zsh(helps: dict[str, str]) -> str:
    rows = "\n".join(f"        {quoted(name + ':' + about)}" for name, about in abouts(helps).items())
    cases = "\n".join(f"        {name}) compadd -- {' '.join(options(helps[name]))} ;;" for name in abouts(helps))
    return f"""#compdef yampa
# Completion of yampa for zsh.
_yampa() {{
    local -a commands=(
{rows}
    )
    if (( CURRENT == 2 )) || [[ $words[2] == help ]]; then
        _describe command commands
        return
    fi
    if [[ $words[CURRENT] != -* ]]; then
        _files
        return
    fi
    case $words[2] in
{cases}
    esac
}}
_yampa "$@"
"""


def fish(helps: dict[str, str]) -> str:
    lines = ["# Completion of yampa for fish."]
    for name, about in abouts(helps).items():
        lines.append(f"complete -c yampa -n __fish_use_subcommand -f -a {name} -d {quoted(about)}")
        lines += [f"complete -c yampa -n '__fish_seen_subcommand_from {name}' -l {option[2:]}" for option in options(helps[name])]
    return "\n".join(lines) + "\n"


# ---- syntax


def groups() -> dict[str, list[str]]:
    """The language's words by what they are."""
    return {
        "Keyword": HEADER,
        "Type": [*TYPE_WORDS, *TYPE_FORMS],
        "Constant": ["unit", "true", "false"],
        "Function": [*EXPRESSION_FORMS, *EXPRESSION_SUGAR, *[word for word in EXPRESSION_WORDS if word not in ("unit", "true", "false")]],
        "Statement": [*NETWORK_FORMS, *NETWORK_WORDS, *NETWORK_SUGAR, *NETWORK_SUGAR_WORDS],
    }


def pattern(words: list[str]) -> str:
    """A regular expression of whole words, the longest first."""
    return "|".join(re.escape(word) for word in sorted(words, key=len, reverse=True))


def vim() -> str:
    lines = ['" Syntax of networks and certificates of the Yampa workbench.', 'if exists("b:current_syntax") | finish | endif']
    for group, words in groups().items():
        each = "\\|".join(re.sub(r"([*.&>-])", lambda found: "\\" + found[1] if found[1] in "*." else found[1], word) for word in sorted(words, key=len, reverse=True))
        lines += [f"syntax match yampa{group} '\\%(^\\|[ \\t(]\\)\\zs\\%({each}\\)\\ze\\%([ \\t();]\\|$\\)'", f"highlight default link yampa{group} {group}"]
    lines += [
        "syntax match yampaNumber '\\%(^\\|[ \\t(]\\)\\zs-\\?\\d\\+\\ze\\%([ \\t();]\\|$\\)'",
        "highlight default link yampaNumber Number",
        "syntax match yampaComment ';.*$'",
        "highlight default link yampaComment Comment",
        "setlocal commentstring=;\\ %s lisp",
        'let b:current_syntax = "yampa"',
    ]
    return "\n".join(lines) + "\n"


def text_mate() -> str:
    scopes = {"Keyword": "keyword.other", "Type": "storage.type", "Constant": "constant.language", "Function": "support.function", "Statement": "keyword.control"}
    patterns = [{"name": "comment.line.semicolon.yampa", "match": ";.*$"}]
    patterns += [{"name": f"{scopes[group]}.yampa", "match": rf"(?<![^\s()])({pattern(words)})(?![^\s();])"} for group, words in groups().items()]
    patterns.append({"name": "constant.numeric.yampa", "match": r"(?<![^\s()])-?\d+(?![^\s();])"})
    grammar = {"name": "Yampa", "scopeName": "source.yampa", "fileTypes": ["yampa", "net"], "firstLineMatch": r"^\s*(yampa|laws) ", "patterns": patterns}
    return json.dumps(grammar, indent=2) + "\n"
