"""The part of docs/MANUAL.md that says what the help says: each command with its synopsis, its arguments, its options and its statuses."""
import re
import textwrap

MOST_COLUMNS = 100


def shown_option(command, option):
    """An option in a synopsis, with what needs it, and with dots where it may be given more than once."""
    inner = ''.join(f' [{shown_option(command, it)}]' for it in command.needing(option))
    return option.shown() + inner


def words_of_synopsis(command):
    """The words of a synopsis, in brackets where they may be left out."""
    found = ['fretime', command.name, *command.required, *(f'[{name}]' for name in command.optional)]
    for group in command.groups():
        words = ' | '.join(shown_option(command, option) for option in group)
        found.append(f'[{words}]' + ('...' if group[0].repeats else ''))
    return found


def synopsis(command):
    """A synopsis in lines that aren't too wide; a further line begins below the arguments."""
    words = words_of_synopsis(command)
    lines, line, indent = [], ' '.join(words[:2]), ' ' * (len(' '.join(words[:2])) + 1)
    for word in words[2:]:
        if len(line) + len(word) + 1 > MOST_COLUMNS:
            lines.append(line)
            line = indent + word
        else:
            line += ' ' + word
    return [*lines, line]


def prose(paragraph):
    """A paragraph of the help, as Markdown: what is shifted by two columns is code."""
    lines, is_code = [], False
    for line in paragraph:
        if line.startswith('  ') != is_code:
            lines += ['```', ''] if is_code else ['', '```'] if lines else ['```']
            is_code = not is_code
        lines.append(line.removeprefix('  ') if is_code else re.sub(r'([<>|*])', r'\\\1', line))
    return lines + ['```'] * is_code


def statuses(paragraph):
    """The statuses of a command, a row each: in the help they are one sentence or two."""
    text = ' '.join(paragraph).partition(':')[2].strip().rstrip('.')
    return [(status, meaning.strip(' ,;.')) for status, meaning in re.findall(r'(?:^|[,;] )(\d) (.*?)(?=[,;] \d |$)', text)]


def table(head, rows):
    return [f'| {" | ".join(head)} |', '|---' * len(head) + '|', *(f'| {" | ".join(row)} |' for row in rows)]


def described(command, option, notes):
    """What an option does: its line of help, its default, what it excludes or needs, and what is said of it beside that."""
    texts = [option.about + '.']
    if option.default:
        texts.append(f'Default: {option.default}.')
    if option.repeats and 'repeated' not in option.about:
        texts.append('May be repeated.')
    if option.needs:
        texts.append(f'Only with `--{option.needs.name}`.')
    if option.excludes:
        texts.append(f'Not with {", ".join(f"`--{name}`" for name in sorted(option.excludes))}.')
    return ' '.join([*texts, notes.of_options.get((command.name, option.name), '')]).strip()


def section(command, notes):
    """The section of a command."""
    lines = [f'### `{command.name}`', '', '```', *synopsis(command), '```']
    for paragraph in command.before:
        text = prose(paragraph)
        if len(command.before) == 1:
            text[-1] = text[-1].rstrip('.') + '.'
        lines += ['', *text]
    for text in notes.of_commands.get(command.name, []):
        lines += ['', *textwrap.wrap(text, 128)]
    if command.arguments:
        lines += ['', *table(['Argument', 'What it is'], [[f'`{name}`', about] for name, about in command.arguments.items()])]
    if command.options:
        rows = [[f'`{option.shown()}`', described(command, option, notes)] for option in command.options]
        lines += ['', *table(['Option', 'What it does'], rows)]
    for paragraph in command.after:
        if paragraph[0].startswith('Exit status:'):
            lines += ['', *table(['Status', 'Meaning'], [list(row) for row in statuses(paragraph)])]
        else:
            lines += ['', *prose(paragraph)]
    return '\n'.join(lines) + '\n'


def commands(program, notes):
    """The part of the manual about the commands."""
    rows = [[f'[`{name}`](#{name})', program.abouts[name]] for name in program.commands]
    head = '\n'.join(table(['Command', 'What it does'], rows))
    return '\n'.join([head + '\n', *(section(command, notes) for command in program.commands.values())])
