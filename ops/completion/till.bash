# Completion for `till`, for Bash: its words and their options, zones after `--zone`, and head office's words after `office`. bench/packages holds them against what the program says.

_till() {
    local -A options=(
        [rent]="--customer --copy"
        [return]="--copy --rental"
        [pay]="--customer --amount --rental"
        [join]="--first --last --address --phone --city --postal"
        [bar]="--customer"
        [unbar]="--customer"
        [import]="--file --lot"
        [dispatch]="--to --copies"
        [receive]="--from --number --missing"
        [scrap]="--copy"
        [customer]="--find"
        [film]="--find"
        [in-stock]="--copy"
        [held-by]="--copy"
        [copies]="--film"
        [balance]="--customer"
        [overdue]=""
        [arrivals]=""
        [sent]=""
        [rewards]="--purchases --amount"
        [sales]=""
        [waiting]=""
        [send]=""
        [last]="--count"
        [day]="--date --count"
        [again]="--late"
        [slip]=""
        [today]="--date"
        [zone]="--name"
        [desk]="--port --listen"
        [window]="--address --staff --drawer --secret-file"
        [help]=""
        [init]="--address --token --staff --zone --office"
        [office]=""
    )
    local office="country-add language-add category-add city-add actor-add film-add film-price film-withdraw cast-add branch-add staff-add staff-leave manager-set balance-rule sales custody transit audit"
    local current=$2 previous=$3 word="" at offered=""
    for ((at = 1; at < COMP_CWORD; at++)); do
        if [[ ${COMP_WORDS[at - 1]} != --@(book|drawer|staff) && -n ${options[${COMP_WORDS[at]}]+is} ]]; then
            word=${COMP_WORDS[at]}
            break
        fi
    done
    case $previous in
        --book | --file | --secret-file) compopt -o default ;;
        --zone) offered="UTC $(awk -F '\t' '!/^#/ {print $3}' /usr/share/zoneinfo/zone.tab 2>/dev/null)" ;;
        --json | --yes | --office | --late) ;&
        [!-]*)
            if [[ -z $word ]]; then
                offered="${!options[*]} --book --drawer --json --staff --yes --help"
            elif [[ $word == help ]]; then
                ((at + 1 < COMP_CWORD)) || offered="${!options[*]}"
            elif [[ $word == office ]]; then
                ((at + 1 < COMP_CWORD)) || offered=$office
            elif [[ $word == import && $previous == import ]]; then
                compopt -o default
            else
                offered="${options[$word]} --help"
            fi
            ;;
    esac
    mapfile -t COMPREPLY < <(compgen -W "$offered" -- "$current")
}

complete -F _till till
