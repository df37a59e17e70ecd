# bash completion for zmeta

_zmeta_commands='ask replay catalogues run loop join new records serve show pqf help'
_zmeta_syntaxes='marc21 unimarc xml sutrs opac grs1'
_zmeta_terms='--title --author --subject --isbn --issn --year --any'
_zmeta_search="$_zmeta_terms --query --records --elements --syntax"
_zmeta_views='--titles --fields --json --hex --html'
_zmeta_limits='--connect --patience --within'
_zmeta_families='--ipv4 --ipv6'

# Files, where $1 stands before their names in the word, and $2 is what is typed of a name.
_zmeta_files() {
    local i
    compopt -o filenames 2> /dev/null
    mapfile -t COMPREPLY < <(compgen -f -- "$2")
    for i in "${!COMPREPLY[@]}"; do
        COMPREPLY[i]=$1${COMPREPLY[i]}
    done
}

# Of the words in $1 those that begin with $2, with $3 before each.
_zmeta_choose() {
    mapfile -t COMPREPLY < <(compgen -P "${3-}" -W "$1" -- "$2")
}

# Whether option $1 may stand behind those in $2: --only and terms may stand again, and --query excludes terms.
_zmeta_may() {
    local other excluded
    case $1 in
        --only) excluded='' ;;
        --title | --author | --subject | --isbn | --issn | --year | --any) excluded=--query ;;
        --query) excluded="--query $_zmeta_terms" ;;
        --titles | --fields | --json | --hex | --html) excluded="$_zmeta_views --quiet" ;;
        --quiet) excluded="$_zmeta_views --quiet" ;;
        --world | --toml) excluded='--world --toml' ;;
        --ipv4 | --ipv6) excluded="$_zmeta_families -4 -6" ;;
        *) excluded=$1 ;;
    esac
    for other in $excluded; do
        [[ " $2 " == *" $other "* ]] && return 1
    done
    return 0
}

# Options of command $1 that begin with $2, and may stand behind those in $3.
_zmeta_options() {
    local options='' left='-h --help' option
    case $1 in
        ask) options="--at-once $_zmeta_limits $_zmeta_families --only $_zmeta_search $_zmeta_views --heading --save --trace --explain" ;;
        replay) options="$_zmeta_views --heading --save --explain" ;;
        run | loop) options="$_zmeta_search $_zmeta_views --heading --save --explain" ;;
        join) options="$_zmeta_views --heading --save --quiet --explain" ;;
        new) options="$_zmeta_views --heading --explain" ;;
        records) options='--new --only --syntax --conflicts --explain' ;;
        show) options='--trace --only --explain' ;;
        pqf) options="$_zmeta_terms --explain" ;;
        catalogues) options="--world --toml $_zmeta_terms --query --records --syntax --explain" ;;
        serve) options=--explain ;;
        *) left= ;;
    esac
    for option in $options; do
        _zmeta_may "$option" "$3" && left+=" $option"
    done
    _zmeta_choose "$left" "$2"
}

# The value of option $1, of which $2 is typed, and $3 stands before it in the word.
_zmeta_value() {
    case $1 in
        --save | --trace | --new) _zmeta_files "$3" "$2" ;;
        --syntax) _zmeta_choose "$_zmeta_syntaxes" "$2" "$3" ;;
        --elements) _zmeta_choose 'F B' "$2" "$3" ;;
    esac
}

# Word $2 of command $1, of which $3 is typed; the first is 0.
_zmeta_word() {
    case $1.$2 in
        ask.0 | replay.0 | catalogues.0 | run.0 | loop.0) _zmeta_files '' "$3" ;;
        join.* | new.[01] | records.* | serve.2) _zmeta_files '' "$3" ;;
        help.0) _zmeta_choose "$_zmeta_commands" "$3" ;;
    esac
}

# What is typed last is $cur, behind the words in $words.
_zmeta_any() {
    local command=${words[1]-} place=0 valued='' given='' ended='' last i
    case $command in
        '')
            _zmeta_choose "$_zmeta_commands -h --help -V --version" "$cur"
            return
            ;;
        -*) return ;;
        ask) valued=" --only $_zmeta_limits $_zmeta_search --heading --save --trace " ;;
        show) valued=' --trace --only ' ;;
        run | loop) valued=" $_zmeta_search --heading --save " ;;
        join | replay) valued=' --heading --save ' ;;
        new) valued=' --heading ' ;;
        records) valued=' --new --only --syntax ' ;;
        pqf) valued=" $_zmeta_terms " ;;
        catalogues) valued=" $_zmeta_terms --query --records --syntax " ;;
    esac
    for ((i = 2; i < ${#words[@]}; i++)); do
        last=${words[i]}
        case $ended$last in
            --) ended=1 ;;
            --*)
                given+=" ${last%%=*}"
                [[ $valued == *" $last "* ]] && i=$((i + 1))
                ;;
            -?*) given+=" $last" ;;
            *) place=$((place + 1)) ;;
        esac
    done
    # The value of an option that stands last is typed.
    if ((i > ${#words[@]})); then
        _zmeta_value "$last" "$cur" ''
    elif [ -z "$ended" ] && [[ $cur == --*=* && $valued == *" ${cur%%=*} "* ]]; then
        _zmeta_value "${cur%%=*}" "${cur#*=}" "${cur%%=*}="
    elif [ -z "$ended" ] && [[ $cur == -* ]]; then
        _zmeta_options "$command" "$cur" "$given"
    else
        _zmeta_word "$command" "$place" "$cur"
    fi
}

_zmeta() {
    local words=() cur i last glued=''
    COMPREPLY=()
    # bash cuts words at = and : too; here they are put together again.
    for ((i = 0; i <= COMP_CWORD; i++)); do
        last=${COMP_WORDS[i]-}
        if [ -n "$glued" ] || { ((i > 2)) && [[ $last =~ ^[:=]+$ ]]; }; then
            words[${#words[@]} - 1]+=$last
        else
            words+=("$last")
        fi
        glued=''
        [[ $last =~ ^[:=]+$ ]] && glued=1
    done
    [ -n "$glued" ] && last=''
    cur=${words[${#words[@]} - 1]}
    unset "words[${#words[@]} - 1]"
    _zmeta_any
    # Only what stands behind the last = or : is replaced.
    COMPREPLY=("${COMPREPLY[@]#"${cur%"$last"}"}")
}

complete -F _zmeta zmeta
