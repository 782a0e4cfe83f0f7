#!/usr/bin/env python3
"""Makes the files that are installed with the program, from docs/commands.md, docs/guide.md and docs/search.md:

    perkeep.1       the manual page
    perkeep.bash    completions for bash
    _perkeep        completions for zsh

    install/make.py [FOLDER]

They are written into FOLDER or, without one, into the folder of this script. The first table of docs/commands.md has the
lines of the commands. Each section of that page becomes a section of the manual, except those that are only about the
repository. The guide provides the examples of the manual, which are the first commands of each task and all commands
about shares, and its table of files. docs/search.md provides the table of search words.
"""

import pathlib
import posixpath
import re
import sys
from typing import NamedTuple

HERE = pathlib.Path(__file__).resolve().parent
DOCS = HERE.parent / "docs"
PAGE, GUIDE, SEARCH = DOCS / "commands.md", DOCS / "guide.md", DOCS / "search.md"
# The heads of the table of commands, and the sections that aren't in the manual.
HEADS = ["command line", "what it does", "what it prints"]
LEFT_OUT = ["The launcher"]
# The section of the guide that is a table of files, and the one whose commands are all examples.
FILES, SHARES = "Files", "Share a file or a folder"
# The section of the manual, and of docs/search.md, with the table of search words, and the sentence that links to it.
WORDS = "Search words"
LINK_TO_WORDS = re.compile(r"\[search\.md\]\(search\.md#search-words\)\s+has\s+a\s+table\s+of\s+the\s+search\s+words\.")
PURPOSE = "keeps an archive of blobs, notes and files"
MADE = "made from docs/commands.md, docs/guide.md and docs/search.md by install/make.py"


# The page

class Command(NamedTuple):
    """A command, as its line of the table says."""

    usage: str
    does: str

    @property
    def name(self):
        return self.usage.split()[0]

    @property
    def words(self):
        """The words after the name, without brackets: the names of options, and of values and positions."""
        return re.sub(r"[][]", "", self.usage).split()[1:]

    @property
    def options(self):
        """The options, each with the name of its value."""
        return [(word, value) for word, value in zip(self.words, self.words[1:]) if word.startswith("--")]

    @property
    def positions(self):
        before = ["", *self.words]
        return [word for word, last in zip(self.words, before) if not word.startswith("--") and not last.startswith("--")]

    def may_lack(self, position):
        return f"[{position}]" in self.usage


def blocks_of(text):
    """The parts between empty lines, each as its lines."""
    return [block.splitlines() for block in re.split(r"\n{2,}", text.strip("\n"))]


def rows_of(block):
    """The cells of a table, its heads first, without the line below those."""
    rows = [[cell.strip() for cell in line.strip("|").split("|")] for line in block]
    return [rows[0], *rows[2:]]


def is_table(block):
    return block[0].startswith("|")


def commands_of(blocks):
    """The commands of the page."""
    tables = [rows_of(block) for block in blocks if is_table(block)]
    found = next(rows for heads, *rows in tables if heads == HEADS)
    return [Command(usage.strip("`"), plain(does)) for usage, does, _ in found]


def kinds_of(text):
    """The possible values of KIND."""
    named = re.search(r"KIND is one of the words ((?:`\w+`(?:, | and )?)+)", " ".join(text.split()))
    return re.findall(r"`(\w+)`", named[1])


def without_links(text):
    """Text in which a link is its words, and a page is named by its path in the repository."""
    return re.sub(r"\[([^]]*)\]\(([^)]*)\)", told_link, text)


def told_link(link):
    words, page = link[1], link[2].partition("#")[0]
    if not page:
        return words
    path = posixpath.normpath(f"docs/{page}")
    return path if words in (page, path) else f"{words} ({path})"


def plain(text):
    """Text without marks."""
    return without_links(text).replace("`", "")


# The guide

def sections_of(text):
    """The sections of a page by their headings."""
    return dict(section.split("\n", 1) for section in re.split(r"(?m)^## ", text)[1:])


def tasks_of(sections):
    """The lines of the first commands of each section of the guide that has any, and of all commands about shares."""
    for heading, text in sections.items():
        commands = re.findall(r"(?ms)^```sh\n(.*?)^```$", text)
        if commands:
            yield heading, "".join(commands if heading == SHARES else commands[:1]).splitlines()


# The manual page

def escaped(text):
    """Text in which nothing is a request, and each character is the plain one."""
    for mark, name in [("\\", r"\e"), ("-", r"\-"), ("'", r"\(aq"), ("^", r"\(ha"), ("~", r"\(ti"), ("`", r"\(ga")]:
        text = text.replace(mark, name)
    return re.sub(r"(?m)^\.", r"\\&.", text)


def formatted(text):
    """A running text: its code is bold, and its emphasis is in italics."""
    parts = without_links(text).split("`")
    return "".join(bold(part) if place % 2 else stressed(escaped(part)) for place, part in enumerate(parts))


def bold(text):
    return rf"\fB{escaped(text)}\fR"


def stressed(text):
    text = re.sub(r"\*\*([^*]+)\*\*", r"\\fB\1\\fR", text)
    return re.sub(r"\*([^*]+)\*", r"\\fI\1\\fR", text)


def manual_table(block):
    """A table as a list of its rows: the first cell, described by the others."""
    heads, *rows = rows_of(block)
    lines = []
    for first, *cells in rows:
        told = [cells[0], *(f"{head}: {cell}" for head, cell in zip(heads[2:], cells[1:]))]
        lines += [".TP", bold(plain(first)), formatted("; ".join(told))]
    return lines


def manual_list(block):
    """A list, whose items may have several lines."""
    lines = []
    for line in block:
        item = re.fullmatch(r"(-|\d+\.) (.*)", line)
        mark = r"\(bu" if item and item[1] == "-" else item and item[1]
        lines += [f".IP {mark} 3", formatted(item[2])] if item else [formatted(line.strip())]
    return lines


def manual_code(lines):
    """Commands, or a block of text, unchanged."""
    return [".RS 4", ".EX", *(escaped(line).replace("./perkeep", "perkeep") for line in lines), ".EE", ".RE"]


def manual_block(block):
    if block[0].startswith("#"):
        marks, _, title = block[0].partition(" ")
        return [f'.SH "{escaped(title.upper())}"' if marks == "##" else f'.SS "{escaped(title)}"']
    if is_table(block):
        return manual_table(block)
    if block[0].startswith("    "):
        return [".PP", *manual_code(line[4:] for line in block)]
    if re.match(r"(-|\d+\.) ", block[0]):
        return manual_list(block)
    return [".PP", formatted("\n".join(block))]


def is_kept(section):
    return section.partition("\n")[0] not in LEFT_OUT


def manual_guide(sections):
    """The examples and the files."""
    lines = [".SH EXAMPLES"]
    for heading, commands in tasks_of(sections):
        lines += [".PP", f"{formatted(heading)}:", *manual_code(commands)]
    blocks = blocks_of(sections[FILES])
    return [*lines, ".SH FILES", *(line for block in blocks for line in manual_block(block))]


def with_search_words(section, search):
    """A section of the manual; that of search words gets their table."""
    if section.partition("\n")[0] != WORDS:
        return section
    tables = ["\n".join(block) for block in blocks_of(sections_of(search)[WORDS]) if is_table(block)]
    text = LINK_TO_WORDS.sub("These are the search words:", section.rstrip("\n"))
    return "\n\n".join([text, *tables]) + "\n"


def manual(text, guide, search):
    first, *sections = text.split("\n## ")
    kept = (with_search_words(section, search) for section in sections if is_kept(section))
    text = "\n## ".join([first, *kept])
    blocks = blocks_of(text)[1:]
    lines = [rf".\" {MADE}", '.TH PERKEEP 1 "" perkeep', ".nh", ".ad l", ".SH NAME", rf"perkeep \- {PURPOSE}", ".SH SYNOPSIS"]
    for command in commands_of(blocks):
        lines += [".PD 0", ".PP", bold(f"perkeep {command.usage}")]
    lines += [".PD", ".SH DESCRIPTION", *(line for block in blocks for line in manual_block(block))]
    lines += manual_guide(sections_of(guide))
    lines += [".SH \"SEE ALSO\"", "The pages that are named docs/ are in the sources of the program."]
    return "\n".join(lines) + "\n"


# Completions

BASH = r"""# Completions of perkeep for bash, {made}.

# The positions and options of a command.
_perkeep_words() {{
  positions=() options=()
  case $1 in
{cases}
  esac
}}

# Offers the words that begin with the one being typed.
_perkeep_offer() {{
  mapfile -t COMPREPLY < <(compgen "$@" -- "$word")
}}

_perkeep() {{
  local words=() word name place count=0 is_over='' given=' ' folder='' option='' positions options
  COMPREPLY=()
  _perkeep_join
  word=${{words[-1]}} name=${{words[0]}}
  if [ "${{#words[@]}}" -eq 1 ]; then
    _perkeep_offer -W '{names}'
    return
  fi
  _perkeep_words "$name"
  for ((place = 1; place < ${{#words[@]}} - 1; place++)); do
    if [ -z "$is_over" ] && [ "${{words[place]}}" = -- ]; then
      is_over=1
    elif [ -z "$is_over" ] && [[ ${{words[place]}} == --* ]]; then
      option=${{words[place]}}
      given+="$option "
      # Its value comes next. A `=` before it is a word of its own here, even before a value that is yet to be typed.
      [ "${{words[place + 1]}}" != = ] || [ $((place + 2)) -eq "${{#words[@]}}" ] || place=$((place + 1))
      place=$((place + 1))
    else
      [ "${{positions[count]:-}}" != DIR ] || folder=${{words[place]}}
      count=$((count + 1))
    fi
  done
  if [ "$place" -eq "${{#words[@]}}" ]; then
    # The value of an option. It may be anything, except that of --key.
    word=${{word#=}}
    [ "$option" != --key ] || _perkeep_keys
    return
  fi
  # The last position may come several times.
  [[ $count -lt ${{#positions[@]}} || ${{positions[*]}} != *.. ]] || count=$((${{#positions[@]}} - 1))
  case $is_over$word in
    -*) _perkeep_options ;;
    *) _perkeep_position "${{positions[count]:-}}" ;;
  esac
}}

# The words up to the one being typed. Bash may take colons for words of their own; here they are parts of words.
_perkeep_join() {{
  local place last=''
  for ((place = 1; place <= COMP_CWORD; place++)); do
    if [ "${{#words[@]}}" -gt 1 ] && [[ ${{COMP_WORDS[place]}} == : || $last == *: ]]; then
      words[-1]+=${{COMP_WORDS[place]}}
    else
      words+=("${{COMP_WORDS[place]}}")
    fi
    last=${{COMP_WORDS[place]}}
  done
}}

# Offers the values of a position, and the options if those aren't known.
_perkeep_position() {{
  case $1 in
    DIR)
      compopt -o filenames 2>/dev/null
      _perkeep_offer -d
      ;;
    NAME)
      compopt -o filenames 2>/dev/null
      _perkeep_offer -f
      ;;
    ADDR | ADDR..) _perkeep_addresses ;;
    KIND) _perkeep_offer -W '{kinds}' ;;
    *) _perkeep_options ;;
  esac
}}

# Offers the names of the keys of the folder that was typed before.
_perkeep_keys() {{
  folder=${{folder//\\/}}
  _perkeep_offer -W "$(cut -d ' ' -f 1 "${{folder/#\~\//$HOME/}}/keyring" 2>/dev/null)"
}}

# Offers the ports of 127.0.0.1 at which some program listens: servers, and tunnels to them.
_perkeep_addresses() {{
  local local state addresses=''
  while read -r _ local _ state _; do
    [[ $local != 0100007F:* || $state != 0A ]] || addresses+=" 127.0.0.1:$((16#${{local#*:}}))"
  done 2>/dev/null </proc/net/tcp
  _perkeep_offer -W "$addresses"
  # If bash takes colons for words, the text before the last one stays.
  [[ $word != *:* || $COMP_WORDBREAKS != *:* ]] || COMPREPLY=("${{COMPREPLY[@]#"${{word%:*}}:"}}")
}}

# Offers the options that aren't there yet. There are none after a word `--`.
_perkeep_options() {{
  local option left=()
  for option in "${{options[@]}}"; do
    [[ $given == *" $option "* ]] || left+=("$option")
  done
  [ -n "$is_over" ] || _perkeep_offer -W "${{left[*]}}"
}}

complete -F _perkeep perkeep
"""

ZSH = r"""#compdef perkeep
# Completions of perkeep for zsh, {made}.

_perkeep() {{
  if (( CURRENT == 2 )); then
    local -a commands=(
{commands}
    )
    _describe command commands
    return
  fi
  local name=$words[2]
  shift words
  (( CURRENT -= 1 ))
  case $name in
{cases}
  esac
}}

# The names of the keys of the folder that was typed before.
_perkeep_keys() {{
  local folder=${{(Q)line[1]}}
  local keyring=${{folder/#\~\//$HOME/}}/keyring
  [[ ! -r $keyring ]] || compadd -- ${{${{(f)"$(<$keyring)"}}%% *}}
}}

# The ports of 127.0.0.1 at which some program listens: servers, and tunnels to them.
_perkeep_addresses() {{
  local row
  for row in ${{(f)"$(</proc/net/tcp)"}}; do
    [[ ${{row[(w)2]}} != 0100007F:* || ${{row[(w)4]}} != 0A ]] || compadd 127.0.0.1:$((16#${{${{row[(w)2]}}#*:}}))
  done
}}

_perkeep "$@"
"""


def completions_for_bash(commands, kinds):
    cases = [
        f"    {command.name}) positions=({' '.join(command.positions)}) options=({' '.join(name for name, _ in command.options)}) ;;"
        for command in commands
    ]
    names = " ".join(command.name for command in commands)
    return BASH.format(made=MADE, cases="\n".join(cases), names=names, kinds=" ".join(kinds))


def quoted(text):
    return "'" + text.replace("'", r"'\''") + "'"


def zsh_words(command, kinds):
    """The zsh specification of the positions and options of a command."""
    offers = {"DIR": "_directories", "KIND": f"({' '.join(kinds)})", "NAME": "_files", "ADDR": "_perkeep_addresses"}
    for place, position in enumerate(command.positions, 1):
        mark = "::" if command.may_lack(position) else ":"
        name = position.removesuffix("..")
        yield quoted(f"{place if name == position else '*'}{mark}{name}:{offers.get(name, ' ')}")
    for name, value in command.options:
        yield quoted(f"{name}=:{value}:{'_perkeep_keys' if name == '--key' else ' '}")


def completions_for_zsh(commands, kinds):
    names = [f"      {quoted(f'{command.name}:{command.does}')}" for command in commands]
    cases = [f"    {command.name}) _arguments -S {' '.join(zsh_words(command, kinds))} ;;" for command in commands]
    return ZSH.format(made=MADE, commands="\n".join(names), cases="\n".join(cases))


def main():
    folder = pathlib.Path(sys.argv[1]) if len(sys.argv) > 1 else HERE
    text = PAGE.read_text()
    (folder / "perkeep.1").write_text(manual(text, GUIDE.read_text(), SEARCH.read_text()))
    commands, kinds = commands_of(blocks_of(text)), kinds_of(text)
    (folder / "perkeep.bash").write_text(completions_for_bash(commands, kinds))
    (folder / "_perkeep").write_text(completions_for_zsh(commands, kinds))


if __name__ == "__main__":
    main()
