"""What is said of the command line in other places is made of the one place where it stands, USAGE and COMMANDS in
crates/ira_main_cli/src/command_line.rt: completions, the manual page's synopsis and options, two tables of docs/COMMANDS.md,
and what `ira guide` prints. The manual page's section on questions is what `ira guide questions` prints, and the texts that it
and `ira guide logs` have in common with docs/FORMATS.md are held against that page.

    python3 checks/command_words.py [--write]      says what differs, or writes all of it
"""
import os
import re
import sys
from collections import namedtuple

HERE = os.path.dirname(os.path.abspath(__file__))
ROOT = os.path.join(HERE, '..')
SOURCE = 'crates/ira_main_cli/src/command_line.rt'
GUIDE = 'crates/ira_main/src/guide.rt'
# Values that are one of a few words: what the help names first, or `any`.
WORDS = {'start': 'initiator passive', 'depth': '0 1 2 3 4', 'leads': 'any', 'TOPIC': 'questions logs'}
Option = namedtuple('Option', 'name value parser need help')


def read(name):
    with open(os.path.join(ROOT, name), encoding='utf-8') as file:
        return file.read()


# ---- the command line -----------------------------------------------------------------------------
def strings(text):
    """The constants that are strings, as the program has them."""
    found = {}
    for name, value in re.findall(r'^const (\w+): &str =\s*"((?:[^"\\]|\\.|\\\n)*)";', text, re.M):
        found[name] = re.sub(r'\\\n\s*', '', value).replace('\\n', '\n').replace('\\"', '"')
    return found


def option(text, words):
    """An argument as a command has it."""
    name, form, need, help_ = re.fullmatch(r'Argument\(\s*"(\w+)",\s*(\w+(?:\([^)]*\))?),\s*(\w+(?:\("[^"]*"\))?),\s*(\w+),?\s*\)', text, re.S).groups()
    value = re.match(r'(?:Value\("([^"]*)",\s*|Word\()(\w+)\)', form)
    return Option(name, value and value[1], value[2] if value else form, need, words[help_])


def command_line():
    text = read(SOURCE)
    words = strings(text)
    argument = r'Argument\((?:[^()]|\([^()]*\))*\)'
    shared = {name: option(value, words) for name, value in re.findall(rf'^const (\w+): Argument =\s*({argument});', text, re.M)}
    commands = []
    for name, about, arguments in re.findall(
            r'CommandEntry \{\s*name: "(\w+)",\s*about: "([^"]*)",\s*arguments: &\[(.*?)\],\s*\}', text, re.S):
        found = re.findall(rf'{argument}|\b[A-Z_]+\b(?=,|\s*$)', arguments)
        commands.append((name, about, [shared[it] if it in shared else option(it, words) for it in found]))
    assert len(commands) == text.count('        arguments: &['), 'an entry that this script does not read'
    return words['USAGE'], commands


USAGE, COMMANDS = command_line()
HELP = 'Print the help of a command'
HELPED = Option('help', None, 'Flag', 'Optional', HELP)
VERSION = dict((name, about) for name, about, _ in COMMANDS)['version']


def is_named(it):
    return it.parser == 'Flag' or it.value is not None


def named(options):
    return [it for it in options if is_named(it)]


def worded():
    """The commands that take one of a few words, with that argument."""
    return [(name, it) for name, _, options in COMMANDS for it in options if not is_named(it) and it.name in WORDS]


def takes_files(options):
    return any(it.parser == 'Files' for it in options)


def options_of_all():
    """Each argument, where it is the same, with the commands that have it."""
    found = {}
    for name, _, options in COMMANDS:
        for it in options:
            found.setdefault(it, []).append(name)
    return found.items()


# ---- completions ----------------------------------------------------------------------------------
def kind(it):
    """How the value of an option is completed: its words, folders, files or nothing."""
    return WORDS.get(it.name) or ('folders' if it.parser == 'FOLDER' else 'nothing' if it.parser != 'TEXT' or ',' in it.value else 'files')


def bash():
    lines = ['# Completion of `ira` for bash. `make install` puts it where bash-completion looks; else: source completions/ira.bash',
             '# Made by checks/command_words.py.', '',
             f"_ira_commands='{' '.join(name for name, _, _ in COMMANDS)} help'", '', '# The options of a command.', '_ira_options() {',
             '    case $1 in']
    lines += [f"        {name}) echo {' '.join('--' + it.name for it in named(options) + [HELPED])} ;;" for name, _, options in COMMANDS]
    lines += ['    esac', '}', '', '_ira() {',
              '    local word=${COMP_WORDS[COMP_CWORD]} before=${COMP_WORDS[COMP_CWORD - 1]} command=${COMP_WORDS[1]}',
              '    if ((COMP_CWORD == 1)); then',
              '        mapfile -t COMPREPLY < <(compgen -W "$_ira_commands --help --version -V" -- "$word")', '        return', '    fi',
              '    if [[ $word == -* ]]; then', '        mapfile -t COMPREPLY < <(compgen -W "$(_ira_options "$command")" -- "$word")',
              '        return', '    fi', '    compopt -o filenames 2> /dev/null', '    case $command:$before in',
              '        help:*) mapfile -t COMPREPLY < <(compgen -W "${_ira_commands% help}" -- "$word") ;;']
    by_kind, taken = {}, [(name, it) for name, _, options in COMMANDS for it in named(options) if it.value]
    for name, it in taken:
        alike = {kind(other) for _, other in taken if other.name == it.name}
        by_kind.setdefault(kind(it), {})['*' if len(alike) == 1 else name, it.name] = True
    for what, places in by_kind.items():
        if what != 'files':
            flags = {'folders': '-d', 'nothing': None}.get(what, f"-W '{what}'")
            done = 'COMPREPLY=()' if flags is None else f'mapfile -t COMPREPLY < <(compgen {flags} -- "$word")'
            lines.append(f"        {' | '.join(f'{name}:--{option}' for name, option in places)}) {done} ;;")
    lines += [f"        {name}:*) mapfile -t COMPREPLY < <(compgen -W '{WORDS[it.name]}' -- \"$word\") ;;" for name, it in worded()]
    bare = [name for name, _, options in COMMANDS if not takes_files(options) and name not in dict(worded())]
    lines += [f"        {' | '.join(name + ':*' for name in bare)}) COMPREPLY=() ;;",
              '        *) mapfile -t COMPREPLY < <(compgen -f -- "$word") ;;', '    esac', '}', '', 'complete -F _ira ira']
    return lines


def quoted(words):
    return words.replace("'", "'\\''")


def zsh():
    does = lambda words: quoted(words.replace(':', '\\:'))
    lines = ['#compdef ira',
             '# Completion of `ira` for zsh. `make install` puts it into share/zsh/site-functions; else put it into a folder of $fpath.',
             '# Made by checks/command_words.py.', '', '_ira() {', '    local -a commands=(']
    lines += [f"        '{name}:{does(about)}'" for name, about, _ in COMMANDS]
    lines += [f"        'help:{HELP}'", '    )', f"    local -a options=('--help:{HELP}' {{--version,-V}}':{does(VERSION)}')",
              '    if ((CURRENT == 2)); then', '        _describe command commands', '        _describe -o option options', '        return',
              '    fi', '    shift words', '    ((CURRENT--))', '    case $words[1] in']
    for name, _, options in COMMANDS:
        lines += [f'        {name})', '            _arguments \\']
        for it in options + [HELPED]:
            takes = {'folders': '_files -/', 'files': '_files', 'nothing': ''}.get(kind(it), f'({kind(it)})') if it.value else ''
            help_ = quoted(it.help.replace('[', '\\[').replace(']', '\\]').replace(':', '\\:'))
            word = f"                ':{help_}:{f'({WORDS[it.name]})' if it.name in WORDS else ''}' \\"
            lines.append("                '*:log:_files' \\" if it.parser == 'Files' else word if not is_named(it) else (
                f"                '--{it.name}[{help_}]{f':{quoted(it.value.split(chr(124))[0])}:{takes}' if it.value else ''}' \\"))
        lines[-1] = lines[-1][:-2]
        lines.append('            ;;')
    lines += ['        help)', '            commands[-1]=()', '            _describe command commands', '            ;;', '    esac', '}', '',
              '_ira "$@"']
    return lines


def fish():
    lines = ['# Completion of `ira` for fish. `make install` puts it into share/fish/vendor_completions.d; else: source completions/ira.fish',
             '# Made by checks/command_words.py.', '']
    first = 'complete -c ira -f -n __fish_use_subcommand'
    lines += [f"{first} -a {name} -d '{fished(about)}'" for name, about, _ in COMMANDS]
    lines += [f"{first} -a help -d '{HELP}'", f"{first} -l version -s V -d '{fished(VERSION)}'", f"{first} -l help -d '{HELP}'"]
    lines.append('')
    for it, names in options_of_all():
        if it in named([it]):
            takes = {'folders': " -x -a '(__fish_complete_directories)'", 'files': ' -r -F', 'nothing': ' -x'}.get(
                kind(it), f" -x -a '{kind(it)}'") if it.value else ''
            lines.append(f"complete -c ira -n '__fish_seen_subcommand_from {' '.join(names)}' -l {it.name}{takes} -d '{fished(it.help)}'")
    everywhere = ' '.join(name for name, _, _ in COMMANDS)
    bare = ' '.join(name for name, _, options in COMMANDS if not takes_files(options))
    lines += [f"complete -c ira -n '__fish_seen_subcommand_from {everywhere}' -l help -d '{HELP}'",
              f"complete -c ira -f -n '__fish_seen_subcommand_from {bare}'"]
    lines += [f"complete -c ira -n '__fish_seen_subcommand_from {name}' -a '{WORDS[it.name]}' -d '{fished(it.help)}'"
              for name, it in worded()]
    return lines + [f"complete -c ira -f -n '__fish_seen_subcommand_from help' -a '{everywhere}'"]


def fished(words):
    return words.replace('\\', '\\\\').replace("'", "\\'")


# ---- pages ----------------------------------------------------------------------------------------
def spelled(it):
    return f'--{it.name}' + (f' {it.value}' if it.value else '') if is_named(it) else it.name


def said(it):
    """The help of an argument, with what it is if it isn't given."""
    value = re.fullmatch(r'Default\("(.*)"\)', it.need)
    return it.help + (f'; {value[1]} if not given' if value else '')


def tables():
    cell = lambda words: words.replace('|', '\\|')
    at = lambda name: 'the-command-logs---each' if name == 'logs' else f'the-command-{name}'
    lines = ['| Command | What it does |', '|---|---|', '| `ira < LOG` | Judges the log of one node, on standard input, by itself |']
    lines += [f'| [`ira {name}`](#{at(name)}) | {cell(about)} |' for name, about, _ in COMMANDS]
    lines += ['', '| Argument | Of | What it says |', '|---|---|---|']
    return lines + [f"| `{cell(spelled(it))}` | {', '.join(names)} | {cell(said(it))} |" for it, names in options_of_all()]


def troff(words):
    return words.replace('\\', '\\e').replace('-', '\\-')


def synopsis():
    lines = ['.nf']
    for line in USAGE.split('\n'):
        if line.strip():
            lines.append(troff(line.strip()))
    return lines + ['.fi']


def manual_options():
    lines = []
    for it, names in options_of_all():
        lines += ['.TP', f".BR \"{troff(spelled(it))}\" \" (\" \"{', '.join(names)}\" )", troff(said(it))]
    return lines


# ---- guides ---------------------------------------------------------------------------------------
def commands_guide():
    width = max(len(name) for name, _, _ in COMMANDS)
    usage, logs = USAGE.split('\n\n')
    lines = ['`ira` judges and makes logs of Itai-Rodeh elections on anonymous rings.', '']
    lines += ['    ' + line.strip() for line in usage.split('\n')] + ['', logs + '. Without words `ira` judges one log on standard input.', '']
    lines += [f'    {name:{width}}  {about}' for name, about, _ in COMMANDS]
    return lines + ['', '`ira COMMAND --help` says on standard error which options a command has. `ira guide questions` says',
                    'how questions are written, and `ira guide logs` how logs are.']


def guides():
    """The guides, by the names of their constants."""
    return dict(re.findall(r'^const (\w+)_GUIDE: &\[u8\] = b"\\\n(.*?)";$', read(GUIDE), re.M | re.S))


def paragraphs(guide):
    return guide.strip('\n').split('\n\n')


def manual_questions():
    lines = []
    for part in paragraphs(guides()['QUESTIONS']):
        rows = [troff(line[4:] if line.startswith('    ') else line) for line in part.split('\n')]
        lines += ['.PP', '.nf', '.RS'] + rows + ['.RE', '.fi'] if part.startswith('    ') else ['.PP'] + rows
    return lines[1:]


def strange():
    """The texts of guides that docs/FORMATS.md hasn't."""
    page = read('docs/FORMATS.md')
    shared = [part for guide in guides().values() for part in paragraphs(guide) if re.match('    (CLAUSE =|irlog 1\nnodes)', part.replace('\n    ', '\n'))]
    assert len(shared) == 2, 'a text of a guide that this script does not find'
    return [part for part in shared if part + '\n' not in page]


MADE = {
    GUIDE: [('const COMMANDS_GUIDE: &[u8] = b"\\\n', '";\n', commands_guide)],
    'completions/ira.bash': [(None, None, bash)],
    'completions/_ira': [(None, None, zsh)],
    'completions/ira.fish': [(None, None, fish)],
    'docs/COMMANDS.md': [('<!-- made by checks/command_words.py -->\n', '<!-- to here -->\n', tables)],
    'docs/ira.1': [('.\\" The synopsis is made by checks/command_words.py, to the end of its lines.\n', '.SH DESCRIPTION\n', synopsis),
                   ('.\\" The options are made by checks/command_words.py, to the end of their lines.\n', '.SH FILES\n', manual_options),
                   ('.\\" The questions are made by checks/command_words.py, to the end of their lines.\n', '.SH EXIT STATUS\n', manual_questions)],
}


def main():
    differ = False
    for name, parts in MADE.items():
        text = made = read(name)
        for begin, end, lines in parts:
            new = '\n'.join(lines()) + '\n'
            if begin is None:
                made = new
                continue
            a = made.index(begin) + len(begin)
            made = made[:a] + new + made[made.index(end, a):]
        if made != text and '--write' in sys.argv:
            with open(os.path.join(ROOT, name), 'w', encoding='utf-8') as file:
                file.write(made)
        elif made != text:
            old, new = text.split('\n'), made.split('\n')
            at = next((i for i, (a, b) in enumerate(zip(old, new)) if a != b), min(len(old), len(new)))
            print(f'{name}:{at + 1}: {old[at:at + 1]}, but the command line says {new[at:at + 1]}')
            differ = True
    for part in strange():
        sys.exit(f'{GUIDE}: docs/FORMATS.md has not these lines:\n{part}')
    if differ:
        sys.exit('run: python3 checks/command_words.py --write')
    print('completions, guides, the manual page and COMMANDS.md say what the command line does')


if __name__ == '__main__':
    main()
