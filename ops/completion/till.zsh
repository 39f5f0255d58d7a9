#compdef till
# Completion for `till`, for Zsh: its words and their options, zones after `--zone`, and head office's words after `office`. bench/packages holds them against what the program says.

_till() {
    local -A options=(
        [rent]="--customer --copy"
        [return]="--copy --rental"
        [pay]="--customer --amount --rental"
        [join]="--first --last --address --phone --city --postal"
        [bar]="--customer"
        [unbar]="--customer"
        [import]="--file --lot"
        [dispatch]="--to --copies"
        [receive]="--from --number --missing"
        [scrap]="--copy"
        [customer]="--find"
        [film]="--find"
        [in-stock]="--copy"
        [held-by]="--copy"
        [copies]="--film"
        [balance]="--customer"
        [overdue]=""
        [arrivals]=""
        [sent]=""
        [rewards]="--purchases --amount"
        [sales]=""
        [waiting]=""
        [send]=""
        [last]="--count"
        [day]="--date --count"
        [again]="--late"
        [slip]=""
        [today]="--date"
        [zone]="--name"
        [desk]="--port --listen"
        [window]="--address --staff --drawer --secret-file"
        [help]=""
        [init]="--address --token --staff --zone --office"
        [office]=""
    )
    local -a office=(country-add language-add category-add city-add actor-add film-add film-price film-withdraw cast-add branch-add staff-add staff-leave manager-set balance-rule sales custody transit audit)
    local word="" at
    for ((at = 2; at < CURRENT; at++)); do
        if [[ $words[at-1] != --(book|drawer|staff) ]] && (( ${+options[$words[at]]} )); then
            word=$words[at]
            break
        fi
    done
    case $words[CURRENT-1] in
        --book | --file | --secret-file) _files ;;
        --zone) compadd -- UTC ${(f)"$(awk -F '\t' '!/^#/ {print $3}' /usr/share/zoneinfo/zone.tab 2>/dev/null)"} ;;
        --json | --yes | --office | --late | [^-]*)
            if [[ -z $word ]]; then
                compadd -- ${(k)options} --book --drawer --json --staff --yes --help
            elif [[ $word == help ]]; then
                (( at + 1 < CURRENT )) || compadd -- ${(k)options}
            elif [[ $word == office ]]; then
                (( at + 1 < CURRENT )) || compadd -a office
            elif [[ $word == import && $words[CURRENT-1] == import ]]; then
                _files
            else
                compadd -- ${=options[$word]} --help
            fi
            ;;
    esac
}

_till "$@"
