# bash: the commands of svsim as `svsim help` lists them, the options of a command and the kinds as its help lists them, and files.
_svsim() {
    local word=${COMP_WORDS[COMP_CWORD]} program=${COMP_WORDS[0]/#\~/$HOME} command='' option='' kinds='' each
    for each in "${COMP_WORDS[@]:1:COMP_CWORD-1}"; do
        case $option:$each in --hart:= | --page:= | --kind:= | --max:= | --known:=) continue ;; esac
        case $option:$each in --hart:* | --page:* | --kind:* | --max:* | --known:*) option='' && continue ;; esac
        case $each in -?*) option=$each ;; *) command=${command:-$each} option='' ;; esac
    done
    if [ "$option" = --kind ]; then
        for each in $("$program" help watch 2>/dev/null | sed -n 's/^  --kind .*: \([a-z, ]*\), or .*/\1/p' | tr -d ,); do
            kinds="$kinds $each kernel-$each"
        done
        mapfile -t COMPREPLY < <(compgen -W "$kinds" -- "${word#=}")
    elif [ "$option" = --known ]; then
        compopt -o filenames
        mapfile -t COMPREPLY < <(compgen -f -- "${word#=}")
    elif [ "$option" = --hart ] || [ "$option" = --page ] || [ "$option" = --max ]; then
        COMPREPLY=()
    elif [ -z "$command" ] || [ "$command" = help ]; then
        mapfile -t COMPREPLY < <(compgen -W "$("$program" help 2>/dev/null | sed -n 's/^  \([a-z]*\) .*/\1/p')" -- "$word")
    elif [[ $word == -* ]]; then
        mapfile -t COMPREPLY < <(compgen -W "$("$program" help "$command" 2>/dev/null | sed -n 's/^  \(--[a-z]*\) .*/\1/p')" -- "$word")
    else
        compopt -o filenames
        mapfile -t COMPREPLY < <(compgen -f -- "$word")
    fi
}
complete -F _svsim svsim
