# Completion of the words of slotshift, slotlive, slotview, slotplan, slotunits and slotlint for bash:
# put `source PATH/completions/slotshift.bash` into ~/.bashrc.

# Offers the files with this ending, or all where there is none, and folders; in /dev the devices that serve as one,
# which are these two where no third word names another.
_slotshift_files() {
    local IFS=$'\n' devices=$'/dev/null\n/dev/stdin'
    compopt -o filenames 2>/dev/null
    COMPREPLY=($(compgen -f -X "!*.$1" -- "$2") $(compgen -d -- "$2"))
    case $2 in
    /dev/*/*) ;;
    /dev/*)
        COMPREPLY+=($(compgen -W "${3-$devices}" -- "$2"))
        return
        ;;
    esac
    [ "${#COMPREPLY[@]}" -gt 0 ] || COMPREPLY=($(compgen -f -- "$2"))
}

_slotshift() {
    local current=${COMP_WORDS[COMP_CWORD]}
    COMPREPLY=()
    case ${COMP_WORDS[1]}:$COMP_CWORD in
    *:1)
        local commands='check replay gantt table show replay-table migrate verify explain switch margin selfrun'
        COMPREPLY=($(compgen -W "$commands --help --version" -- "$current"))
        ;;
    check:2 | replay:2 | gantt:2 | table:2 | verify:2 | explain:2 | switch:2 | switch:3 | margin:2) _slotshift_files toml "$current" ;;
    show:2 | replay-table:2 | migrate:2) _slotshift_files bin "$current" ;;
    replay:3 | gantt:3 | replay-table:3 | verify:3 | explain:3 | switch:4) _slotshift_files csv "$current" ;;
    verify:4) _slotshift_files trace "$current" ;;
    esac
}

_slotlive() {
    local current=${COMP_WORDS[COMP_CWORD]}
    COMPREPLY=()
    case ${COMP_WORDS[COMP_CWORD - 1]}:$COMP_CWORD in
    *:1)
        _slotshift_files toml "$current"
        [ "${current#-}" = "$current" ] || COMPREPLY=($(compgen -W '--table --help --version' -- "$current"))
        ;;
    --table:2) _slotshift_files bin "$current" ;;
    --record:*) _slotshift_files csv "$current" /dev/null ;;
    *:2 | *:3) COMPREPLY=($(compgen -W --record -- "$current")) ;;
    esac
}

_slotview() {
    local current=${COMP_WORDS[COMP_CWORD]}
    COMPREPLY=()
    case ${COMP_WORDS[1]}:$COMP_CWORD in
    *:1)
        local views='picture jobs events spans waves stairs'
        COMPREPLY=($(compgen -W "$views --help --version" -- "$current"))
        ;;
    jobs:2 | picture:2)
        _slotshift_files toml "$current"
        [ "${current#-}" = "$current" ] || COMPREPLY=(--table)
        ;;
    jobs:3 | picture:3) [ "${COMP_WORDS[2]}" != --table ] || _slotshift_files bin "$current" ;;
    esac
}

_slotlint() {
    local current=${COMP_WORDS[COMP_CWORD]} ending=toml
    COMPREPLY=()
    case ${COMP_WORDS[COMP_CWORD - 1]}:$current in
    --slots:*) return ;;
    --tasks:*) ;;
    *:-*)
        COMPREPLY=($(compgen -W '--json --all --tasks --slots --help --version' -- "$current"))
        return
        ;;
    *) [[ " ${COMP_WORDS[*]} " != *' --tasks '* ]] || ending=csv ;;
    esac
    _slotshift_files "$ending" "$current"
}

_slotplan() {
    local current=${COMP_WORDS[COMP_CWORD]}
    COMPREPLY=()
    case ${COMP_WORDS[1]}:$COMP_CWORD in
    *:1)
        local questions='load who header supply'
        COMPREPLY=($(compgen -W "$questions --help --version" -- "$current"))
        ;;
    load:2 | who:2 | header:2 | supply:2) _slotshift_files toml "$current" ;;
    esac
}

_slotunits() {
    local current=${COMP_WORDS[COMP_CWORD]}
    COMPREPLY=()
    case ${COMP_WORDS[1]}:$COMP_CWORD in
    *:1)
        local questions='tasks check arrivals trace'
        COMPREPLY=($(compgen -W "$questions --help --version" -- "$current"))
        ;;
    tasks:2 | check:2 | arrivals:2 | trace:2) _slotshift_files toml "$current" ;;
    arrivals:3) _slotshift_files csv "$current" ;;
    esac
}

complete -F _slotshift slotshift
complete -F _slotlive slotlive
complete -F _slotview slotview
complete -F _slotlint slotlint
complete -F _slotplan slotplan
complete -F _slotunits slotunits
