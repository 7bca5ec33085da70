# fish: the commands of svsim as `svsim help` lists them, the options of a command and the kinds as its help lists them, and files.
function __svsim_commands
    svsim help 2>/dev/null | string replace --regex --filter '^  ([a-z]+) [A-Z ]* (.*)' '$1\t$2'
end
# The first word that is no option, nor the value of one.
function __svsim_command
    set -l words (string join ' ' -- (commandline -opc)[2..] | string replace --all --regex -- '--(hart|page|kind|max|known) \\S+' '')
    string match --invert --regex -- '^-.|^$' (string split ' ' -- $words) | head -n 1
end
function __svsim_wants_command
    set -l command (__svsim_command)
    contains -- "$command" '' help
end
# The options of the command.
function __svsim_options
    svsim help (__svsim_command) 2>/dev/null | string replace --regex --filter '^  (--[a-z]+) +(.*)' '$1\t$2'
end
# The option whose value comes next, without its hyphens.
function __svsim_option
    string match --regex --groups-only -- '^--(hart|page|kind|max|known)$' (commandline -opc)[-1]
end
function __svsim_kinds
    for kind in (svsim help watch 2>/dev/null | string match --regex --groups-only '^  --kind .*: ([a-z, ]*), or ' | string split ', ')
        echo $kind
        echo kernel-$kind
    end
end
complete -c svsim -f -n 'not __svsim_option; and __svsim_wants_command' -a '(__svsim_commands)'
complete -c svsim -F -n 'not __svsim_option; and not __svsim_wants_command' -a '(__svsim_options)'
complete -c svsim -f -n '__svsim_option; and not contains -- known (__svsim_option)' -a '(test (__svsim_option) = kind; and __svsim_kinds)'
complete -c svsim -F -n 'contains -- known (__svsim_option)'
