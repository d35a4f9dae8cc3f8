# What bash completes for pandoricchia, made from its parser: pandoricchia completion bash
_pandoricchia() {
    local now=${COMP_WORDS[COMP_CWORD]} before=${COMP_WORDS[COMP_CWORD - 1]} verb= k
    local names options files coded codes valued # verbs or arguments; options, and what some of them take
    for ((k = 1; k < COMP_CWORD; k++)); do
        case "$verb:${COMP_WORDS[k]}" in
        :encode | :spoil | :check | :quick | :correct | :open | :why | :nearest | :samples | :unit | :frames | :blocks | :bch | :summary | :report | :campaign | :completion | samples:make | samples:correct | unit:write | unit:read | blocks:import | blocks:export | bch:encode | bch:check)
            verb="${verb:+$verb }${COMP_WORDS[k]}" ;;
        esac
    done
    case "$verb" in
    "") names='encode spoil check quick correct open why nearest samples unit frames blocks bch summary report campaign completion' options='-h --help --version' ;;
    "encode") options='-h --help -o --output -c --code -l --limit --fill --bare -j --jobs' files='-o --output' coded='-c --code' codes='1 2 3 4 5' valued='-l --limit -j --jobs' ;;
    "spoil") options='-h --help -o --output -w --wrong -r --rate -s --seed -c --code -j --jobs' files='-o --output' coded='-c --code' codes='1 2 3 4 5' valued='-w --wrong -r --rate -s --seed -j --jobs' ;;
    "check") options='-h --help -c --code -j --jobs' coded='-c --code' codes='1 2 3 4 5' valued='-j --jobs' ;;
    "quick") options='-h --help -c --code -j --jobs' coded='-c --code' codes='1 2 3 4 5' valued='-j --jobs' ;;
    "correct") options='-h --help -o --output -c --code -l --limit --count -j --jobs' files='-o --output' coded='-c --code' codes='1 2 3 4 5' valued='-l --limit -j --jobs' ;;
    "open") options='-h --help -o --output -c --code -j --jobs' files='-o --output' coded='-c --code' codes='1 2 3 4 5' valued='-j --jobs' ;;
    "why") options='-h --help -c --code -l --limit --count -j --jobs' coded='-c --code' codes='1 2 3 4 5' valued='-l --limit -j --jobs' ;;
    "nearest") options='-h --help -o --output -r --reach -c --code -j --jobs' files='-o --output' coded='-c --code' codes='1' valued='-r --reach -j --jobs' ;;
    "samples") names='make correct' options='-h --help' ;;
    "samples make") options='-h --help -o --output --noise -s --seed -c --code -j --jobs' files='-o --output' coded='-c --code' codes='1 2 3 4' valued='--noise -s --seed -j --jobs' ;;
    "samples correct") options='-h --help -o --output -c --code -l --limit --count -j --jobs' files='-o --output' coded='-c --code' codes='1 2 3 4' valued='-l --limit -j --jobs' ;;
    "unit") names='write read' options='-h --help' ;;
    "unit write") options='-h --help -o --output -c --code' files='-o --output' coded='-c --code' codes='1 3' ;;
    "unit read") options='-h --help -o --output -c --code -l --limit --count' files='-o --output' coded='-c --code' codes='1 3' valued='-l --limit' ;;
    "frames") options='-h --help -o --output --received -l --limit -e --edition --count' files='-o --output' valued='-l --limit -e --edition' ;;
    "blocks") names='import export' options='-h --help' ;;
    "blocks import") options='-h --help -o --output' files='-o --output' ;;
    "blocks export") options='-h --help -o --output' files='-o --output' ;;
    "bch") names='encode check' options='-h --help' ;;
    "bch encode") options='-h --help -o --output' files='-o --output' ;;
    "bch check") options='-h --help -o --output --detect-only' files='-o --output' ;;
    "summary") options='-h --help -o --output -c --code --words --worst' files='-o --output' coded='-c --code' codes='1 2 3 4 5' valued='--words --worst' ;;
    "report") options='-h --help -o --output -c --code -l --limit --words --worst -j --jobs' files='-o --output' coded='-c --code' codes='1 2 3 4 5' valued='-l --limit --words --worst -j --jobs' ;;
    "campaign") options='-h --help -o --output -c --code -l --limit -w --wrong -n --words -s --seed -j --jobs' files='-o --output' coded='-c --code' codes='1 2 3 4 5' valued='-l --limit -w --wrong -n --words -s --seed -j --jobs' ;;
    "completion") names='bash zsh' options='-h --help -o --output' files='-o --output' ;;
    esac
    COMPREPLY=()
    [[ " $files " == *" $before "* ]] && return # readline completes files
    [[ $now == -* ]] && names=$options
    [[ " $coded " == *" $before "* ]] && names=$codes
    [[ " $valued " == *" $before "* ]] && names=
    [[ " $coded $valued " == *" $before "* ]] && compopt +o default
    mapfile -t COMPREPLY < <(compgen -W "$names" -- "$now")
}
complete -o default -F _pandoricchia pandoricchia
