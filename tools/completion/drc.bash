# Completion of drc, drc_cli and drc-check for bash: tools/install puts it where bash-completion looks; or `source` this file.

# _drc_files CURRENT SUFFIX ..: folders, and files that end so; all files without a suffix.
_drc_files() {
    local current=$1 suffix IFS=$'\n'
    shift
    compopt -o filenames 2>/dev/null
    if [ $# -eq 0 ]; then
        COMPREPLY=($(compgen -f -- "$current"))
        return
    fi
    COMPREPLY=($(compgen -d -- "$current"))
    for suffix in "$@"; do
        COMPREPLY+=($(compgen -f -X "!*.$suffix" -- "$current"))
    done
}

_drc_words() {
    local current=$1
    shift
    COMPREPLY=($(compgen -W "$*" -- "$current"))
}

# Sets `current` and `before`: the word that is being written and the one before it, where an option with = is two words.
_drc_place() {
    current=${COMP_WORDS[COMP_CWORD]} before=${COMP_WORDS[COMP_CWORD - 1]}
    if [ "$current" = = ]; then
        current=
    elif [ "$before" = = ]; then
        before=${COMP_WORDS[COMP_CWORD - 2]}
    fi
}

_drc() {
    local current before
    _drc_place
    case $before in
        --project) _drc_files "$current" kicad_pro; return ;;
        --rules) _drc_files "$current" kicad_dru; return ;;
        --script) _drc_files "$current"; return ;;
        --workers) _drc_words "$current" 1 2 4 8 16 32 64; return ;;
        --make) return ;;
    esac
    case ${COMP_WORDS[1]}:$COMP_CWORD in
        undo:3 | write:3 | try:3) _drc_files "$current"; return ;;
        try:4) _drc_words "$current" 1 2 3 4 5 6 7 8; return ;;
        steal:3) _drc_words "$current" 1 2 4 8 16 32 64; return ;;
        undo:2 | write:2 | try:2 | steal:2) _drc_files "$current" kicad_pcb; return ;;
        undo:[4-9] | write:[4-9] | try:[5-9] | steal:[4-9]) return ;;
    esac
    case $current in
        -*) _drc_words "$current" --project --rules --script --workers --make; return ;;
    esac
    _drc_files "$current" kicad_pcb
    [ "$COMP_CWORD" -ne 1 ] || COMPREPLY+=($(compgen -W 'undo write try steal' -- "$current"))
}

_drc_check() {
    local current before
    _drc_place
    case $before in
        --project) _drc_files "$current" kicad_pro; return ;;
        --rules) _drc_files "$current" kicad_dru; return ;;
        --script | --program | --raw) _drc_files "$current"; return ;;
        --html) _drc_files "$current" html; return ;;
        --json | --kicad-json | --baseline | --gitlab) _drc_files "$current" json; return ;;
        --sarif) _drc_files "$current" sarif; return ;;
        --junit) _drc_files "$current" xml; return ;;
        --markdown) _drc_files "$current" md; return ;;
        --workers) _drc_words "$current" 1 2 4 8 16 32 64; return ;;
        --color) _drc_words "$current" always never auto; return ;;
        --fail-on) _drc_words "$current" error warning open unchecked-rule misspelt unchecked error,open error,warning,open error,open,unchecked-rule; return ;;
        --explain)
            _drc_words "$current" short clearance hole_clearance hole_to_hole edge_clearance courtyard_clearance keepout disallow track_width via_diameter hole_size annular_width \
                physical_clearance physical_hole_clearance assertion open-net not-checked unknown-constraint refused-board refused-project refused-rules refused-script refused-command
            return ;;
    esac
    case $current in
        -*)
            _drc_words "$current" --project --no-project --rules --no-rules --script --workers --program --raw --html --json --kicad-json --sarif --junit --markdown --gitlab \
                --fail-on --baseline --as-project --watch --serve --all --color --explain --version --help
            return ;;
    esac
    _drc_files "$current" kicad_pcb
}

complete -F _drc drc drc_cli
complete -F _drc_check drc-check
