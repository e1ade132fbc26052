# bash completion for iocm: commands, the options of each, numbers of refusals, and files where one more is due
_iocm() {
    local word=${COMP_WORDS[COMP_CWORD]} before=${COMP_WORDS[COMP_CWORD - 1]}
    local commands="check show list write diff plan vary apply run explain help"
    local connected="--image --device --unit --path"
    local filters="$connected --paths-online"
    local scope="--brief --exit-code --lost"
    local reports="--altered --count --deck --plan --test --undo"
    local command="" files=0 most=1 options="--help" place is_value=""
    COMPREPLY=()
    for ((place = 1; place < COMP_CWORD; place++)); do
        if [[ $is_value ]]; then
            is_value=""
            continue
        fi
        case ${COMP_WORDS[place]} in
            --heap | --image | --device | --unit | --path | --paths-online) is_value=yes ;;
            -) ((files++)) ;;
            -*) ;;
            *) if [[ $command ]]; then ((files++)); else command=${COMP_WORDS[place]}; fi ;;
        esac
    done
    case $before in
        --heap) options="262144 1048576 16777216" command=value ;;
        --paths-online) options="0 1 2 3 4 5 6 7 8" command=value ;;
        --image | --device | --unit | --path) return ;;
    esac
    case $command in
        "") options="$commands --help --version" ;;
        check) options+=" --quiet --json --all" ;;
        show) options+=" --quiet --json $filters" ;;
        list)
            options+=" --quiet --json $filters" most=2
            ((files == 0)) && [[ $word != -* ]] && options="images paths units devices" most=0
            ;;
        write) options+=" --quiet --json" ;;
        diff) options+=" --quiet --json --old --exit-code" most=2 ;;
        plan) options+=" --quiet $scope $connected" most=2 ;;
        vary)
            options+=" --quiet --image"
            ((files == 1)) && options="offline online" most=0
            ;;
        apply) options+=" --quiet --json --heap $reports $scope $filters" most=2 ;;
        run) options+=" --quiet --json --heap" most=9999 ;;
        explain) options+=" $(iocm explain 2>/dev/null | cut -d: -f1)" most=0 ;;
        help) options=$commands most=0 ;;
        value) most=0 ;;
        *) return ;;
    esac
    if [[ -z $command || $most == 0 || $word == -?* ]]; then
        mapfile -t COMPREPLY < <(compgen -W "$options" -- "$word")
    elif ((files < most)); then
        compopt -o filenames 2>/dev/null
        mapfile -t COMPREPLY < <(compgen -f -- "$word")
    fi
}
complete -F _iocm iocm
