"""Makes completions for bash and zsh of the help that a program prints."""
from release_help import help_of

# An option that was given is not offered again, as it would be refused. Names of files may have
# spaces, so that each is a line.
BASH = """\
# What bash completes for {name}: made by tools/release of its help.
_{name}() {{
    local current=${{COMP_WORDS[COMP_CWORD]}} before=${{COMP_WORDS[COMP_CWORD - 1]}} word
    local options=' {options} '
    if [[ $current == = ]]; then
        current=''
    elif [[ $before == = ]]; then
        before=${{COMP_WORDS[COMP_CWORD - 2]}}
    fi
    for word in "${{COMP_WORDS[@]:1:COMP_CWORD-1}}"; do
        # (behind it all are files)
        if [[ $word == -- ]]; then options='' before=''; fi
        options=${{options/" $word "/ }}
    done
    COMPREPLY=()
    case $before in
    {valued}) ;;
    *)
        if [[ -n $options && $current == -* ]]; then
            mapfile -t COMPREPLY < <(compgen -W "$options" -- "$current")
        else
            mapfile -t COMPREPLY < <(compgen -f -- "$current")
        fi
        ;;
    esac
}}
complete -o filenames -F _{name} {name}
"""
ZSH = """\
#compdef {name}
# What zsh completes for {name}: made by tools/release of its help.
_arguments -S \\
    {arguments}
"""


def bash(name, said):
    """The completion of a program for bash: its options, and files where one may stand."""
    options = help_of(said).options
    # (of a number or a name nothing is known)
    valued = [it.long for it in options if it.value and not it.is_file]
    spelled = [word for it in options for word in (it.short, it.long) if word]
    return BASH.format(name=name, valued=" | ".join(valued), options=" ".join(spelled))


def zsh(name, said):
    """The completion of a program for zsh, which shows what each option says."""
    found = help_of(said)
    arguments = [argument for it in found.options for argument in option_of_zsh(it)]
    arguments += [f"'{at}:{it.value}:_files'" for at, it in enumerate(found.arguments, 1)]
    return ZSH.format(name=name, arguments=" \\\n    ".join(arguments))


def option_of_zsh(option):
    """An option under each of its names, of which one alone is given."""
    says = option.says.replace("[", r"\[").replace("]", r"\]").replace("'", r"'\''")
    names = [it for it in (option.short, option.long) if it]
    takes = f":{option.value}:{'_files' if option.is_file else ' '}" if option.value else ""
    for name in names:
        equals = "=" if option.value else ""
        yield f"'({' '.join(names)}){name}{equals}[{says}]{takes}'"
