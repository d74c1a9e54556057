"""The synopsis, the description of each command and the options of the man page install/fretime.1, and what it says of standard streams."""
import itertools
import re

from manual import described


def plain(text):
    """A text, as roff takes it as it is."""
    return text.replace('\\', '\\e').replace('-', '\\-')


def fonts(text):
    """A text in which backquotes stand round words: arguments are in italics, all else that is typed or printed is bold."""
    parts = re.split('`([^`]*)`', text)
    shown = [plain(part) if number % 2 == 0 else ('\\fI' if part.isupper() else '\\fB') + plain(part) + '\\fR'
             for number, part in enumerate(parts)]
    return ''.join(shown)


def flag(option):
    """The word of an option."""
    return plain(f'--{option.name}')


def shown(command, option):
    """An option in the synopsis, with its value, and with what needs it."""
    value = f' \\fI{option.value}\\fR' if option.value else ''
    return f'\\fB{flag(option)}\\fR{value}' + ''.join(f' [{shown(command, it)}]' for it in command.needing(option))


def synopsis(program):
    """The synopsis of all commands, a line for each group of options."""
    each = []
    for command in program.commands.values():
        lines = [f'\\fBfretime {command.name}\\fR', f'\\fI{" ".join(command.required)}\\fR']
        lines += [f'[\\fI{name}\\fR]' for name in command.optional]
        for group in command.groups():
            lines += [f'[{" | ".join(shown(command, it) for it in group)}]' + ('...' if group[0].repeats else '')]
        each.append('\n'.join(lines))
    return '\n.br\n'.join([*each, '\\fBfretime help\\fR\n[\\fICOMMAND\\fR]']) + '\n'


def options(program, notes):
    """The options of all commands that have any."""
    lines = []
    for command in program.commands.values():
        lines += [f'.SS Of {command.name}'] if command.options else []
        for option in command.options:
            head = f'.BI {flag(option)} " {option.value}"' if option.value else f'.B {flag(option)}'
            lines += ['.TP', head, *sentences(fonts(described(command, option, notes)))]
    return '\n'.join(lines) + '\n'


def prose(paragraph):
    """A paragraph of the help: what is shifted by two columns is an example."""
    for is_code, lines in itertools.groupby(paragraph, lambda line: line.startswith('  ')):
        if is_code:
            yield from ['.PP', '.in +4n', '.EX', *(plain(line.strip()) for line in lines), '.EE', '.in', '.PP']
        else:
            yield from sentences(fonts(' '.join(lines)))


def description(command, notes):
    """What the help says of a command, but for its arguments, its options and its statuses, and what is said beside that."""
    texts = [it for it in command.before + command.after if not it[0].startswith('Exit status:')]
    if len(command.before) == 1:
        texts[0] = [*texts[0][:-1], texts[0][-1].rstrip('.') + '.']
    lines = [f'.SS {command.name}']
    for paragraph in [*texts, *([text] for text in notes.of_commands.get(command.name, []))]:
        lines += ['.PP', *prose(paragraph)]
    wanted = [line for line, after in zip(lines, [*lines[1:], '']) if (line, after) != ('.PP', '.PP')]
    return '\n'.join(wanted[:1] + wanted[2:]).removesuffix('\n.PP') + '\n'


def descriptions(program, notes):
    """The descriptions of all commands."""
    last = '.SS help\nPrints the help of the program or of\n.IR COMMAND .\n'
    return ''.join([*(description(command, notes) for command in program.commands.values()), last])


def streams(manual):
    """What the manual says of standard streams: the paragraphs of its section but for the first one and for examples."""
    section = re.search(r'(?ms)^## Files and standard streams\n\n(.*?)\n\n## ', manual)[1]
    texts = [it for it in section.split('\n\n')[1:] if not it.startswith('    ')]
    return '\n.PP\n'.join('\n'.join(sentences(fonts(re.sub(':$', '.', ' '.join(it.split()))))) for it in texts) + '\n'


def sentences(text):
    """A sentence a line, as man pages have them; a line that begins like a macro is marked as text."""
    lines = re.sub(r'(?<=[^.]\.) (?=\S)', '\n', text).split('\n')
    return [re.sub(r"^(?=[.'])", r'\\&', line) for line in lines]
