# What bash completes of the words of lmtpd.
_lmtpd() {
    local serve rehearse check copy word=${COMP_WORDS[COMP_CWORD]} before=${COMP_WORDS[COMP_CWORD - 1]}
    # words from building/words.py
    serve='--host --listen --dir --domains --recipient-delimiter --message-limit --rename-marks'
    serve+=' --refuse-malformed --smtputf8 --lanes --blocks --capacity --reads --timeout --session-time'
    serve+=' --bad-commands --log --log-addresses --quota --over-quota --lock-wait --mailbox-suffix'
    serve+=' --mailbox-mode --socket-mode --connections --stop-file --start-anyway --check-words --boxes --help'
    rehearse='--host --time --domains --recipient-delimiter --message-limit --rename-marks --refuse-malformed'
    rehearse+=' --smtputf8 --blocks --quota --over-quota --boxes --help'
    check='--help'
    copy='--help'
    # words to here by building/words.py
    COMPREPLY=()
    if [ "$before" = --dir ]; then
        compopt -o dirnames
    elif [ "$before" = --stop-file ] || [ "$before" = --boxes ]; then
        compopt -o default
    elif [ "$before" = --log ]; then
        mapfile -t COMPREPLY < <(compgen -W 'off error info' -- "$word")
    elif [ "$before" = --over-quota ]; then
        mapfile -t COMPREPLY < <(compgen -W 'defer reject' -- "$word")
    elif [ "$before" = --recipient-delimiter ]; then
        mapfile -t COMPREPLY < <(compgen -W '+ - = # ~' -- "$word")
    elif [ "$COMP_CWORD" = 1 ]; then
        mapfile -t COMPREPLY < <(compgen -W 'serve rehearse check copy help --help --version' -- "$word")
    elif [[ $word = -* ]]; then
        case ${COMP_WORDS[1]} in
        serve) mapfile -t COMPREPLY < <(compgen -W "$serve" -- "$word") ;;
        rehearse) mapfile -t COMPREPLY < <(compgen -W "$rehearse" -- "$word") ;;
        check) mapfile -t COMPREPLY < <(compgen -W "$check" -- "$word") ;;
        copy) mapfile -t COMPREPLY < <(compgen -W "$copy" -- "$word") ;;
        esac
    elif [ "${COMP_WORDS[1]}" = check ] || [ "${COMP_WORDS[1]}" = copy ]; then
        compopt -o default
    fi
}
complete -F _lmtpd lmtpd
