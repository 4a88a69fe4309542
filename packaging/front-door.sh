# shellcheck shell=sh disable=SC2154,SC2034
# What ./run and the release's saxundeer share; either reads it in and then calls `enter "$@"`. Both have set `set -eu`, and
#   door        the name that stands before what it says
#   call        how a user calls it
#   root        where its parts are
#   example     the image of the example
#   unproved    what it says of a program that is not proved
#   cannot      why a program may not start here although it is proved; empty if there is no such reason
# and these functions:
#   programs        prints their names
#   source_of NAME  prints the name of the file that has the program's help; there may be none
#   help_of FILE    prints the help
#   usage           prints the help of the whole
#   own WORD...     answers what only this one can be asked, if it is that
#   is_proved       whether the program `asked` is proved
#   prepare         sees to it that the program `asked` is, or stops
#   launch WORD...  becomes that program

answered='' # whether what follows is an answer, and not a command of this script that failed

answer() {
    answered=yes
    exit "$1"
}

# stop STATUS SENTENCE: with `?` for what could begin a line or worse.
stop() {
    said=$(printf %s "$2" | tr '\001-\037\177' '?')
    printf '%s: %s\n' "$door" "$said" >&2 || answer 74
    answer "$1"
}

trap '[ -n "$answered" ] || stop 74 "a command that this needs failed"' EXIT

# --- What is started here is ended with it. A signal is answered when all of it has ended.
started='' # the processes
group=''   # `-` where each has a group of its own
ended=''   # the signal
log=''     # of the provers; it goes with them

# signalled SIGNAL STATUS
signalled() {
    ended=$1 status=$2
    for process in $started; do
        kill -s KILL -- "$group$process" 2>/dev/null || :
    done
    [ -n "$started" ] || leave
}

# leave: ends as the signal does; a shell may not let QUIT end it.
leave() {
    for process in $started; do
        while kill -0 "$process" 2>/dev/null; do
            wait "$process" 2>/dev/null || :
        done
    done
    [ -z "$log" ] || rm -f "$log"
    answered=yes
    trap - "$ended"
    kill -s "$ended" $$
    exit "$status"
}

trap 'signalled HUP 129' HUP
trap 'signalled INT 130' INT
trap 'signalled QUIT 131' QUIT
trap 'signalled TERM 143' TERM

# follow PROCESS...: waits for the first, and has its status. `started` was set before it began, so that no signal is lost.
follow() {
    started=$*
    [ -z "$ended" ] || signalled "$ended" "$status"
    code=0
    wait "$1" 2>/dev/null || code=$?
    [ -z "$ended" ] || leave
    started=
    return "$code"
}

# What is closed is not left free: a file that is opened later would get its number. Reading such a standard input fails.
(: 5>&2) || exec 2>/dev/null
(: 5<&0) 2>/dev/null || exec 0>/dev/null
(: 5>&1) 2>/dev/null || stop 74 "standard output is closed"

# choose NAME: the program of that name, and where its help stands.
choose() {
    case $1 in
    '' | *[!a-z0-9_]*) stop 64 "'$1' is no program's name; $call --help lists them" ;;
    esac
    asked=$1
    main=$(source_of "$asked")
    [ -f "$main" ] || stop 64 "there is no program '$asked'; $call --help lists them"
}

# list_programs: each with the first line of its help.
list_programs() {
    printf '\nThe programs:\n'
    for asked in $(programs); do
        choose "$asked"
        printf '  %-8s %s\n' "$asked" "$(help_of "$main" | head -n 1)"
    done
}

# tell NAME...: whether each is proved.
tell() {
    all=0
    for asked in "$@"; do
        choose "$asked"
        if is_proved; then is='is proved'; else is=$unproved all=70; fi
        echo "$asked $is" || answer 74
    done
    answer $all
}

# input WORD NAME: counts what stands at a word of the usage line, if that is the name of an input.
input() {
    case $1 in
    IMAGE | TAPE | HEX | LOG | LIST) ;;
    *) return 0 ;;
    esac
    case $dashes$2 in
    -?*) fits=no ;;
    esac
    named=$((named + 1))
    if [ "$2" = - ] || [ -e "$2" ]; then there=$((there + 1)); else missing=${missing:-$2}; fi
}

# look_over WORD...: which of them name inputs, by the program's usage line; how many, how many of these are there, and
# whether there are as many words as it has.
look_over() {
    fits=yes named=0 there=0 missing='' dashes='' option=''
    for word in $line; do
        case $word in
        '[--]') [ "${1-}" != -- ] || { dashes=: && shift; } ;;
        '[--'*)
            option=''
            [ "${1-}" != "${word#?}" ] || { option=yes && shift; }
            continue
            ;;
        [A-Z]*']') [ -n "$option" ] || continue ;;
        '['*) [ $# -gt 0 ] || continue ;;
        esac
        [ "$word" != '[--]' ] || continue
        [ $# -gt 0 ] || fits=no
        kind=${word#[}
        kind=${kind%]}
        case $kind in
        *...)
            for each in "$@"; do
                input "${kind%...}" "$each"
            done
            shift $#
            ;;
        *)
            [ $# -eq 0 ] || { input "$kind" "$1" && shift; }
            ;;
        esac
    done
    [ $# -eq 0 ] || fits=no
}

# start WORD...: answers as the program says. The program runs beside this shell, which could not be signalled otherwise, and its
# line comes through a pipe that is open here for both ends: `end` after it, so that reading never waits.
start() {
    { pipe=$(mktemp -u "${TMPDIR:-/tmp}/run.XXXXXXXXXX") && mkfifo -m 600 "$pipe"; } ||
        stop 74 "no pipe can be made in ${TMPDIR:-/tmp}"
    exec 5<>"$pipe" 7<&0
    rm -f "$pipe"
    started=soon
    (launch "$@") <&7 3>&5 5>&- 7<&- &
    follow $! && whole=yes || whole=
    case $code in
    1 | 126 | 127) [ -z "$cannot" ] || stop 69 "$asked cannot be started: $cannot" ;;
    esac
    echo end >&5
    read -r said <&5
    case $whole$said in
    'yesstatus '[0-9] | 'yesstatus '[1-9][0-9] | 'yesstatus 1'[01][0-9])
        read -r next <&5
        [ "$next" != end ] || answer "${said#status }"
        ;;
    esac
    stop 74 "$asked did not say how it ended: what it wrote may be lost"
}

# enter WORD...: what the user asked for.
enter() {
    asked=${1-}
    own "$@"
    [ $# -eq 0 ] || shift
    case $asked in
    '')
        usage >&2 || answer 74
        answer 64
        ;;
    --help | -h)
        [ $# -eq 0 ] || stop 64 "$asked stands alone; what a program takes is told by $call NAME --help"
        usage | cat || answer 74
        answer 0
        ;;
    --proved)
        # The names of programs are words.
        # shellcheck disable=SC2046
        [ $# -gt 0 ] || set -- $(programs)
        tell "$@"
        ;;
    esac
    is_example=
    if [ "$asked" = example ]; then
        case $* in
        '') set -- --stop 0202 "$example" ;; # where its program is meant to end
        --help) ;;
        *) stop 64 "example takes no word; an image of yours is run by $call report IMAGE" ;;
        esac
        asked=report is_example=yes
    fi
    choose "$asked"
    if [ $# -eq 1 ] && [ "$1" = --help ]; then
        help_of "$main" | cat || answer 74
        answer 0
    fi

    line=$(help_of "$main" | sed -n "s/^$door $asked//p" | head -n 1)
    set -f
    look_over "$@"
    set +f
    if [ $fits$named = yes0 ] && [ -t 0 ]; then
        help_of "$main" >&2
        stop 64 "no input is named, and standard input is a terminal"
    fi
    prepare
    start "$@"
}
