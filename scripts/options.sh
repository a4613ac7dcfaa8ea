# The words of a command that reads recordings. It sets `usage`, and `told_by`, its options with a value, and reads this file with no words: its
# own words become the names alone, and `dataset`, `length` and `table` what was told.
dataset=
length=
table=
names_only=no
words=$#
while [ "$words" -gt 0 ]; do
    word=$1
    shift
    words=$((words - 1))
    case $names_only$word in
    yes* | no-) set -- "$@" "$word" ;;
    no--) names_only=yes ;;
    no--help)
        open_output
        put "$usage$newline"
        exit 0
        ;;
    no--version)
        open_output
        put "$name $version$newline"
        exit 0
        ;;
    no--dataset | no--length | no--table)
        case $told_by in *"$word"*) ;; *) no_option "$word" ;; esac
        [ -n "${1-}" ] && [ "$words" -gt 0 ] || misused "$word wants a value"
        [ -z "$dataset$length$table" ] || misused "of $told_by one may be given, and once"
        case $word in
        --dataset) dataset=$1 ;;
        --length) length=$1 ;;
        --table) table=$1 ;;
        esac
        shift
        words=$((words - 1))
        ;;
    no-*) no_option "$word" ;;
    *) set -- "$@" "$word" ;;
    esac
done
[ $# -gt 0 ] || misused "no recording is named"
case $length in *[!0-9]* | ?????????????????????*) misused "--length wants 1 to 20 digits, not $(show "$length")" ;; esac
