# Made by tools/completions/make from commands.json.
_superc() {
    local word=${COMP_WORDS[COMP_CWORD]} last=${COMP_WORDS[COMP_CWORD-1]}
    COMPREPLY=()
    if [ "$COMP_CWORD" -eq 1 ]; then
        mapfile -t COMPREPLY < <(compgen -W 'tokens parse project conflicts make' -- "$word")
        return
    fi
    case ${COMP_WORDS[1]}:$last in
        tokens:*) mapfile -t COMPREPLY < <(compgen -f -- "$word") ;;
        parse:*) mapfile -t COMPREPLY < <(compgen -f -- "$word") ;;
        project:*) mapfile -t COMPREPLY < <(compgen -f -- "$word") ;;
        conflicts:*) ;;
        make:*) ;;
    esac
}
complete -o filenames -F _superc superc
_superc_view() {
    local word=${COMP_WORDS[COMP_CWORD]} last=${COMP_WORDS[COMP_CWORD-1]}
    COMPREPLY=()
    if [ "$COMP_CWORD" -eq 1 ]; then
        mapfile -t COMPREPLY < <(compgen -W 'tokens at diff faults tree dot html' -- "$word")
        return
    fi
    case ${COMP_WORDS[1]}:$last in
        tokens:--input|tokens:--space) mapfile -t COMPREPLY < <(compgen -f -- "$word") ;;
        tokens:*) mapfile -t COMPREPLY < <(compgen -W '--input --space --exact' -- "$word") ;;
        at:--input|at:--space) mapfile -t COMPREPLY < <(compgen -f -- "$word") ;;
        at:*) mapfile -t COMPREPLY < <(compgen -W '--input --space --text' -- "$word") ;;
        diff:--input|diff:--space) mapfile -t COMPREPLY < <(compgen -f -- "$word") ;;
        diff:*) mapfile -t COMPREPLY < <(compgen -W '--input --space' -- "$word") ;;
        faults:--input|faults:--space) mapfile -t COMPREPLY < <(compgen -f -- "$word") ;;
        faults:*) mapfile -t COMPREPLY < <(compgen -W '--input --space' -- "$word") ;;
        tree:--input|tree:--space) mapfile -t COMPREPLY < <(compgen -f -- "$word") ;;
        tree:--at|tree:--part|tree:--depth) ;;
        tree:*) mapfile -t COMPREPLY < <(compgen -W '--input --space --at --part --depth' -- "$word") ;;
        dot:--input|dot:--space) mapfile -t COMPREPLY < <(compgen -f -- "$word") ;;
        dot:--part) ;;
        dot:*) mapfile -t COMPREPLY < <(compgen -W '--input --space --part' -- "$word") ;;
        html:--input|html:--space|html:--root) mapfile -t COMPREPLY < <(compgen -f -- "$word") ;;
        html:--title) ;;
        html:*) mapfile -t COMPREPLY < <(compgen -W '--input --space --title --root' -- "$word") ;;
    esac
}
complete -o filenames -F _superc_view superc-view
_superc_project() {
    local word=${COMP_WORDS[COMP_CWORD]} last=${COMP_WORDS[COMP_CWORD-1]}
    COMPREPLY=()
    if [ "$COMP_CWORD" -eq 1 ]; then
        mapfile -t COMPREPLY < <(compgen -W 'unit all variables run summary' -- "$word")
        return
    fi
    case ${COMP_WORDS[1]}:$last in
        unit:--database|unit:--variables|unit:--kconfig|unit:--out) mapfile -t COMPREPLY < <(compgen -f -- "$word") ;;
        unit:--variable|unit:--from-source) ;;
        unit:*) mapfile -t COMPREPLY < <(compgen -W '--database --no-system --variable --variables --from-source --kconfig --out' -- "$word") ;;
        all:--database|all:--variables|all:--kconfig|all:--out|all:--superc) mapfile -t COMPREPLY < <(compgen -f -- "$word") ;;
        all:--variable|all:--from-source|all:--read|all:--jobs) ;;
        all:*) mapfile -t COMPREPLY < <(compgen -W '--database --no-system --variable --variables --from-source --kconfig --out --superc --read --ninja --jobs --no-run' -- "$word") ;;
        variables:--database) mapfile -t COMPREPLY < <(compgen -f -- "$word") ;;
        variables:*) mapfile -t COMPREPLY < <(compgen -W '--database --no-system' -- "$word") ;;
        run:--superc) mapfile -t COMPREPLY < <(compgen -f -- "$word") ;;
        run:--read) ;;
        run:*) mapfile -t COMPREPLY < <(compgen -W '--superc --read' -- "$word") ;;
        summary:*) mapfile -t COMPREPLY < <(compgen -f -- "$word") ;;
    esac
}
complete -o filenames -F _superc_project superc-project
