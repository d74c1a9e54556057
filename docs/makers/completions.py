"""What completions of bash, zsh and fish have of the help: commands, options with their values, and the faults that `explain` knows."""

# The options whose value is a name of the circuit, of whatever kind; the value NAME of any other is that of a latch.
AROUND = 'around'


def quoted(text):
    """A text within single quotes of zsh."""
    return text.replace("'", "'\\''")


def quoted_for_fish(text):
    return text.replace('\\', '\\\\').replace("'", "\\'")


def with_value(program):
    """The names of all options with a value, in the order of the help."""
    return list(dict.fromkeys(it.name for command in program.commands.values() for it in command.options if it.value))


def bash(program):
    """The names that the functions of bash look for."""
    return f"_fretime_commands='{' '.join(program.abouts)}'\n_fretime_faults='{' '.join(program.faults)}'\n"


def zsh_value(option):
    """What completes the value of an option."""
    if not option.value:
        return ''
    if option.value == 'NAME':
        return f':NAME:_fretime_{AROUND if option.name == AROUND else "names"}'
    choices = f'({" ".join(option.choices)})' if option.choices else ' ' if option.is_number else '_files'
    return f':{option.value}:{choices}'


def zsh_option(option):
    """An option as `_arguments` takes it."""
    before = '*' if option.repeats else f'({" ".join(f"--{name}" for name in sorted(option.excludes))})' if option.excludes else ''
    return f"'{before}--{option.name}[{quoted(option.about)}]{zsh_value(option)}'"


def zsh_block(program, command):
    """The case of a command."""
    names = command.required + command.optional
    kinds = f'({" ".join(program.faults)})' if command.name == 'explain' else '_files'
    arguments = ' '.join(f"'{number}:{name}:{kinds}'" for number, name in enumerate(names, 2))
    lines = [*map(zsh_option, command.options), "'(-h --help)'{-h,--help}'[Print help]'", arguments]
    listed = ' \\\n'.join(f'                {it}' for it in lines)
    return f'        {command.name})\n            _arguments \\\n{listed}\n            ;;\n'


def zsh_abouts(program):
    return ''.join(f"        '{name}:{quoted(about)}'\n" for name, about in program.abouts.items())


def zsh_blocks(program):
    return ''.join(zsh_block(program, command) for command in program.commands.values())


def zsh_values(program):
    return f"    with_value='--({'|'.join(with_value(program))})'\n"


def fish_values(program):
    return f"        else if string match -qr '^--({'|'.join(with_value(program))})$' -- $word\n"


def fish_option(command, option):
    """The line of an option; names are no files."""
    takes = '' if not option.value else ' -x' if option.is_number or option.choices or option.value == 'NAME' else ' -r'
    return (f"complete -c fretime -n '__fish_seen_subcommand_from {command.name}'{takes} -l {option.name} "
            f"-d '{quoted_for_fish(option.about)}'\n")


def fish_names(program):
    """The options whose values are names of the circuit, each with all commands that have it."""
    found = {}
    for command in program.commands.values():
        for option in command.options:
            if option.value == 'NAME':
                found.setdefault(option.name, (option.about, []))[1].append(command.name)
    for name, (about, commands) in found.items():
        kinds = 'ilobcjf' if name == AROUND else 'l'
        yield (f"complete -c fretime -n '__fish_seen_subcommand_from {' '.join(commands)}' -x -l {name} -a '(__fretime_names {kinds})' \\\n"
               f"    -d '{quoted_for_fish(about)}'\n")


def fish(program):
    """All lines of fish about commands, options and faults."""
    lines = [f"complete -c fretime -n __fish_use_subcommand -f -a {name} -d '{quoted_for_fish(about)}'\n"
             for name, about in program.abouts.items()]
    lines += ["complete -c fretime -n __fish_use_subcommand -s V -l version -d 'Print version'\n",
              "complete -c fretime -n 'not __fish_seen_subcommand_from help' -s h -l help -d 'Print help'\n",
              f"complete -c fretime -n '__fish_seen_subcommand_from help' -f -a '{' '.join(program.abouts)}'\n"]
    for command in program.commands.values():
        lines += ['\n'] if command.options else []
        lines += [fish_option(command, option) for option in command.options]
    lines += ['\n', *fish_names(program), '\n']
    lines += [f"complete -c fretime -n '__fish_seen_subcommand_from explain' -f -a '{' '.join(program.faults)}'\n"]
    return ''.join(lines)
