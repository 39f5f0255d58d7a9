# Completion for `sakila`, for Bash: its words, their options, and the values that are few. bench/packages holds them against what the program says.

_sakila() {
    local -A options=(
        [country-add]="--key --name"
        [language-add]="--key --name"
        [category-add]="--key --name"
        [city-add]="--key --name --country"
        [actor-add]="--key --first --last"
        [film-add]="--key --title --description --language --category --rating --period --rate --replacement --length --features"
        [film-price]="--key --film --rate"
        [film-withdraw]="--key --film"
        [cast-add]="--key --film --actor"
        [branch-add]="--key --token --city --address --postal --phone"
        [staff-add]="--key --branch --city --first --last --address --postal --phone"
        [staff-leave]="--key --staff"
        [manager-set]="--key --branch --staff"
        [balance-rule]="--key --rule"
        [init]="--token"
        [migrate]=""
        [serve]="--port --connections"
        [replay]=""
        [sales]=""
        [custody]="--branch --copy"
        [transit]=""
        [audit]=""
        [help]=""
    )
    local current=$2 previous=$3 word="" at
    for ((at = 1; at < COMP_CWORD; at++)); do
        if [[ ${COMP_WORDS[at - 1]} != --db && -n ${options[${COMP_WORDS[at]}]+is} ]]; then
            word=${COMP_WORDS[at]}
            break
        fi
    done
    local offered=""
    case $previous in
        --db) compopt -o default ;;
        --rating) offered="G PG PG-13 R NC-17" ;;
        --rule) offered="code comment" ;;
        --*) ;;
        *)
            if [[ $word == help ]]; then
                offered="${!options[*]}"
            elif [[ $word ]]; then
                offered="${options[$word]} --help"
            else
                offered="${!options[*]} --db --help"
            fi
            ;;
    esac
    mapfile -t COMPREPLY < <(compgen -W "$offered" -- "$current")
}

complete -F _sakila sakila
