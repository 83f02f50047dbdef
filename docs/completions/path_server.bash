# Completes the words of path_server. Made by tools/manual.
_path_server() {
    local word=${COMP_WORDS[COMP_CWORD]} before=${COMP_WORDS[COMP_CWORD - 1]} options= files=yes offered=
    case ${COMP_WORDS[1]} in
        path) options='--order --workers' ;;
        check) options='--order --workers' ;;
        scen) options='--order --workers' ;;
        made) options='--order --workers' files= ;;
        replay) options='--order --workers' ;;
        talk) options='--order --workers --room' ;;
        serve) options='--order --workers --room' ;;
        ask) options='' files= ;;
        export) options='--order --workers' ;;
        verify) options='' ;;
        near) options='--order --workers' ;;
        nearpath) options='--order --workers' ;;
        lead) options='--order --workers --room' ;;
        follow) options='--order' files= ;;
    esac
    if ((COMP_CWORD == 1)); then
        files= offered='path check scen made replay talk serve ask export verify near nearpath lead follow'
    elif [[ $before == --order ]]; then
        files= offered='rows dfs'
    elif [[ $before == --workers || $before == --room ]]; then
        files=
    elif [[ ${COMP_WORDS[1]} == ask ]]; then
        if ((COMP_CWORD == 3)); then offered='query change build status bye stop'; fi
    elif [[ $word == -* || -z $files ]]; then
        files= offered=$options
    fi
    COMPREPLY=($(compgen -W "$offered" -- "$word"))
    # where nothing is offered the shell completes names of files, if they are wanted
    if [[ -z $files ]]; then compopt +o default 2>/dev/null; fi
}
complete -o default -F _path_server path_server
