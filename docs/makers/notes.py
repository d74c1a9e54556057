"""What docs/notes.txt says of commands and options beside their help, for the manual and the man page: a line '== COMMAND --option ..', or
'== COMMAND' alone, and under it paragraphs, in which backquotes stand round what is typed or printed, and round names of arguments."""
import re

from marks import NotMade, text_of

SOURCE = 'docs/notes.txt'


class Notes:
    """The texts of the file, by command and option; an option that has none may be as that of an earlier command."""

    def __init__(self, commands):
        own = dict(self.texts(commands))
        self.of_options, first = {}, {}
        for name, command in commands.items():
            for option in command.options:
                line, text = (option.name, option.about), own.get((name, option.name))
                if text:
                    self.of_options[name, option.name] = ' '.join(text)
                    first.setdefault(line, name)
                elif line in first:
                    self.of_options[name, option.name] = f'As for `{first[line]}`.'
        self.of_commands = {name: text for (name, option), text in own.items() if not option}

    def texts(self, commands):
        """The paragraphs of each command, whose option is nothing then, and of each option."""
        for part in re.split(r'(?m)^== ', text_of(SOURCE))[1:]:
            head, _, text = part.partition('\n')
            name, *options = head.split()
            known = {f'--{it.name}' for it in commands[name].options} if name in commands else set()
            if name not in commands or not known >= set(options):
                raise NotMade(f'{SOURCE}: the help has no {head}')
            for option in options or ['']:
                yield (name, option.removeprefix('--')), [' '.join(it.split()) for it in re.split(r'\n\n+', text.strip())]
