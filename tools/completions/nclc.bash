# Completion of nclc for bash: commands, options, and files by their endings.
_nclc() {
    local line=${COMP_LINE:0:COMP_POINT} cur prev= command ending options= word files=0 value=0 words i
    COMPREPLY=()
    # The words as a shell splits them: bash's own are cut at an =, and the value of an option stands behind it.
    read -ra words <<< "$line"
    [[ $line == *[[:space:]] ]] && words+=('')
    cur=${words[${#words[@]}-1]} command=${words[1]-}
    if ((${#words[@]} <= 2)); then
        COMPREPLY=($(compgen -W "check compile match sim demo" -- "$cur"))
        return
    fi
    for ((i = 2; i < ${#words[@]} - 1; i++)); do
        word=${words[i]} prev=
        if ((value)); then value=0
        elif [[ $word == --@(limit|delays|words) ]]; then value=1 prev=$word
        elif [[ $word != -* ]]; then ((files++)); fi
    done
    case $cur in
        --limit=* | --delays=* | --words=*) prev=${cur%%=*} cur=${cur#*=} ;;
    esac
    case $command in
        check) options="--limit --why" ending=v ;;
        compile) options=--merge ending=blif ;;
        match) options=--limit ending=v; ((files == 1)) && ending=blif ;;
        sim) options="--delays --words --vcd" ending=v ;;
        *) return ;;
    esac
    case $prev in
        --limit) return ;;
        --delays) ending=delays ;;
        --words) ending=words ;;
        *) if [[ $cur == -* ]]; then
               COMPREPLY=($(compgen -W "$options" -- "$cur"))
               return
           fi ;;
    esac
    compopt -o filenames 2>/dev/null
    local IFS=$'\n'
    COMPREPLY=($(compgen -f -X "!*.$ending" -- "$cur") $(compgen -d -- "$cur"))
}
complete -F _nclc nclc
