# Completion for bash: source this file. For the programs as they are installed, and for those in tools.

_stewpigeon_words() {
    mapfile -t COMPREPLY < <(compgen -W "$1" -- "$2")
}

_stewpigeon_files() {
    compopt -o filenames 2> /dev/null
    mapfile -t COMPREPLY < <(compgen "$1" -- "$2")
}

_stewpigeon() {
    local current=${COMP_WORDS[COMP_CWORD]} previous=${COMP_WORDS[COMP_CWORD - 1]} options names=-f
    case ${1##*/} in
        capture-to-journal | journal) options="--sdp --t140 --red --port --ssrc -o --output --help" ;;
        stewpigeon-inspect | inspect) options="--t140 --red --help" ;;
        stewpigeon-transcript | transcript) options="--no-keepalives --help" ;;
        stewpigeon-archive | archive) options="--jobs --progress --no-keepalives --help" names=-d ;;
    esac
    COMPREPLY=()
    case $previous in
        --t140 | --red) _stewpigeon_words "$(echo {96..127})" "$current" ;;
        --sdp | -o | --output) _stewpigeon_files -f "$current" ;;
        --port | --ssrc | --jobs) ;;
        *)
            case $current in
                -*) _stewpigeon_words "$options" "$current" ;;
                *) _stewpigeon_files "$names" "$current" ;;
            esac
            ;;
    esac
}

complete -F _stewpigeon capture-to-journal stewpigeon-inspect stewpigeon-transcript stewpigeon-archive
if [[ -e $(dirname "${BASH_SOURCE[0]}")/../tools/archive ]]; then
    complete -F _stewpigeon journal inspect transcript archive
fi
