#compdef sakila
# Completion for `sakila`, for Zsh: its words, their options, and the values that are few. bench/packages holds them against what the program says.

_sakila() {
    local -A options=(
        [country-add]="--key --name"
        [language-add]="--key --name"
        [category-add]="--key --name"
        [city-add]="--key --name --country"
        [actor-add]="--key --first --last"
        [film-add]="--key --title --description --language --category --rating --period --rate --replacement --length --features"
        [film-price]="--key --film --rate"
        [film-withdraw]="--key --film"
        [cast-add]="--key --film --actor"
        [branch-add]="--key --token --city --address --postal --phone"
        [staff-add]="--key --branch --city --first --last --address --postal --phone"
        [staff-leave]="--key --staff"
        [manager-set]="--key --branch --staff"
        [balance-rule]="--key --rule"
        [init]="--token"
        [migrate]=""
        [serve]="--port --connections"
        [replay]=""
        [sales]=""
        [custody]="--branch --copy"
        [transit]=""
        [audit]=""
        [help]=""
    )
    local word="" at
    for ((at = 2; at < CURRENT; at++)); do
        if [[ $words[at-1] != --db ]] && (( ${+options[$words[at]]} )); then
            word=$words[at]
            break
        fi
    done
    case $words[CURRENT-1] in
        --db) _files ;;
        --rating) compadd -- G PG PG-13 R NC-17 ;;
        --rule) compadd -- code comment ;;
        --*) ;;
        *)
            if [[ $word == help ]]; then
                compadd -- ${(k)options}
            elif [[ -n $word ]]; then
                compadd -- ${=options[$word]} --help
            else
                compadd -- ${(k)options} --db --help
            fi
            ;;
    esac
}

_sakila "$@"
