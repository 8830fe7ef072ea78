# Completion of the program jivaszte for bash: commands, options of a command, and files.
_jivaszte() {
    local word=${COMP_WORDS[COMP_CWORD]} before=${COMP_WORDS[COMP_CWORD - 1]} command=${COMP_WORDS[1]} options=
    COMPREPLY=()
    if [ "$COMP_CWORD" -eq 1 ]; then
        COMPREPLY=($(compgen -W 'play plot page compile merge show check note advance help --help --version' -- "$word"))
        return
    fi
    case $before in
        -n | --order) COMPREPLY=($(compgen -W '1 2 3' -- "$word")) && return ;;
        -r | --rate) COMPREPLY=($(compgen -W '44100 48000 88200 96000 192000' -- "$word")) && return ;;
        -a | --advance | -d | --delay | -R | --ring) return ;;
    esac
    case $command in
        help) COMPREPLY=($(compgen -W 'play plot page compile merge show check note advance' -- "$word")) && return ;;
        play) options='--output --rate --advance --ring --through --help' ;;
        plot) options='--output --rate --advance --click --help' ;;
        page) options='--output --help' ;;
        compile) options='--output --rate --help' ;;
        merge) options='--output --rate --advance --help' ;;
        show) options='--rate --help' ;;
        check) options='--rate --json --help' ;;
        note) options='--rate --order --json --help' ;;
        advance) options='--order --delay --rate --table --json --help' ;;
    esac
    case $word in
        -*) COMPREPLY=($(compgen -W "$options" -- "$word")) ;;
        *) COMPREPLY=($(compgen -f -- "$word")) ;;
    esac
}
complete -o filenames -F _jivaszte jivaszte
