# Completes the words of cubed in bash: source this file, or put it where bash looks for it.
_cubed() {
    local word=${COMP_WORDS[COMP_CWORD]} command=${COMP_WORDS[2]-} found=
    COMPREPLY=()
    if [ "$COMP_CWORD" -eq 1 ]; then
        mapfile -t COMPREPLY < <(compgen -d -- "$word"; compgen -W "explain help --help --version" -- "$word")
        return
    fi
    case ${COMP_WORDS[1]} in
    help) found="demo load run resume drop plan print check begin part status remove explain" ;;
    explain | -*) return ;;
    *) case $COMP_CWORD in 2) found="demo load run resume drop plan print check begin part status remove explain" ;; *) case $command in
        demo) found="--allowed-mem --reserved-mem --split-every --fusion --workers --retries --backups --sync --help" ;;
        load) found="--retries --sync --help" ;;
        run) found="--allowed-mem --reserved-mem --split-every --fusion --workers --retries --backups --sync --progress --help" ;;
        resume) found="--allowed-mem --reserved-mem --split-every --fusion --workers --retries --backups --sync --progress --help" ;;
        drop) found="--allowed-mem --reserved-mem --split-every --fusion --retries --help" ;;
        plan) found="--allowed-mem --reserved-mem --split-every --fusion --help" ;;
        print) found="--retries --help" ;;
        check) found="--retries --help" ;;
        begin) found="--allowed-mem --reserved-mem --split-every --fusion --retries --sync --help" ;;
        part) found="--allowed-mem --reserved-mem --split-every --fusion --retries --sync --op --from --to --help" ;;
        status) found="--help" ;;
        remove) found="--input --dry-run --help" ;;
        explain) found="--help" ;;
        esac ;; esac ;;
    esac
    mapfile -t COMPREPLY < <(compgen -W "$found" -- "$word")
    case $command in
    print | remove | status)
        if [ "$COMP_CWORD" -gt 2 ] && [ "${word#-}" = "$word" ]; then
            mapfile -t COMPREPLY < <(cd -- "${COMP_WORDS[1]}" 2>/dev/null && compgen -d -X '[_.]*' -- "$word")
        fi
        ;;
    esac
}
complete -o filenames -F _cubed cubed ./cubed
