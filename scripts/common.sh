# What the commands share: their words, names as they are shown, and the program behind each. A command sets `name` (its own) and
# `top` (the repository's folder), then reads this file. No answer goes through a temporary file.
LC_ALL=C
export LC_ALL
version="1.0, for SigMF 1.0.0"
longest=61440
mark=$(printf '\001')
newline='
'

say() { printf '%s\n' "$*" >&2; }

# no answer: exit status 2
fail() {
    say "$name: $*"
    exit 2
}

misused() { fail "$*; see $name --help"; }

no_option() { misused "there is no option $(show "$1")"; }

# A name as the listing shows labels: in quotes, with bytes outside 0x20 to 0x7E, quotes and backslashes as \x and two digits. So no
# file's name prints a line of its own.
show() {
    printf '"'
    printf '%s' "$1" | od -An -v -t u1 | awk '{
        for (i = 1; i <= NF; i++)
            if ($i < 32 || $i > 126 || $i == 34 || $i == 92) printf "\\x%02x", $i
            else printf "%c", $i + 0
    }'
    printf '"'
}

# A program's answer that is a refusal, in every command: document 01's number and sentence, for 13 with request P3's rule, or request P5's, on
# standard error, exit status 1.
refuse() {
    number=${1#refused }
    number=${number%"$newline"}
    case $number in
    1) why="metadata empty or too long, or D above 2^48" ;;
    2) why="not one JSON value in valid UTF-8, or nested beyond 32" ;;
    3) why="some object, however deep, has a name twice or over 256 members" ;;
    4) why="top level not an object; global not an object, captures or annotations not an array, or one missing; an element of either array not an object" ;;
    5) why="a field name in global, a capture or an annotation has the wrong form" ;;
    6) why="a required core field missing" ;;
    7) why="a core field of the wrong type" ;;
    8) why="core:version is not 1.0.0" ;;
    9) why="core:datatype is not in the list" ;;
    10) why="core:num_channels is 0 or above 1,024" ;;
    11) why="a core:datetime breaks its rule" ;;
    12) why="an extension entry is malformed" ;;
    13) why="an extension is needed (none is known yet): an entry of core:extensions has \"optional\" false" ;;
    14) why="core:metadata_only is true, or present beside core:dataset" ;;
    15) why="captures or annotations not ascending by start" ;;
    16) why="headers and trailer exceed D, or the rest isn't whole samples" ;;
    17) why="an index outside the dataset, or the end index above 2^64 - 1" ;;
    18) why="a table handed back in is not well formed, or doesn't fit the metadata or dataset lent with it" ;;
    20) why="the answer needs more rows, pieces or bytes than the lent memory holds" ;;
    21) why="wrong mark or version of a stored table" ;;
    22) why="wrong length for the counts of a stored table" ;;
    *) fail "the program answered 'refused' and the unknown number $(show "$number")" ;;
    esac
    say "refused $number: $why"
    exit 1
}

# ---- input and output
# Before anything else: standard output is open. The answer goes to descriptor 3.
open_output() {
    (exec 4>&1) 2> /dev/null || fail "standard output is closed, so that there is nowhere to write the answer"
    exec 3>&1
}

put() { # TEXT
    reason=$(printf '%s' "$1" | copy_out) && return
    say "$name: $reason"
    exit "${unwritten:-2}"
}

# Copies its input there; where it can't, prints why.
copy_out() {
    why=$(cat 2>&1 >&3) && return
    why=${why##*: }
    printf 'the answer could not be written: %s' "${why:-nobody reads it}"
    return 1
}

# The $2 $1 is a regular file: no folder, and neither a pipe nor a device, which may never end. $3: advice if it is not there
need_file() {
    reason=$(stat -L -- "$1" 2>&1 > /dev/null) || fail "the $2 $(show "$1") is not there: ${reason##*: }${3-}"
    [ ! -d "$1" ] || fail "the $2 $(show "$1") is a folder; name a file"
    [ -f "$1" ] || fail "the $2 $(show "$1") is a pipe or a device; name a regular file"
}

# Sets `size` to the length of the $2 $1.
measure() { size=$(stat -Lc %s -- "$1" 2>&1) || fail "the length of the $2 $(show "$1") is not known: ${size##*: }"; }

# ---- recordings: `dataset`, `length` and `table` are what was told of one
# $1 names a recording of which the dataset stands beside it, or something is told.
need_recording() {
    [ -z "$dataset$length$table" ] || return 0
    case $1 in
    -) misused "with - the dataset is told by --length N or --dataset FILE" ;;
    *.sigmf-meta) ;;
    *) misused "$(show "$1") does not end in .sigmf-meta; a dataset of another name goes with --dataset FILE" ;;
    esac
}

# Sets `size` to the length of the dataset of the recording $1.
measure_dataset() {
    size=$length
    [ -z "$size" ] || return 0
    data=${dataset:-${1%.sigmf-meta}.sigmf-data}
    need_file "$data" dataset "; a dataset of another name goes with --dataset FILE"
    measure "$data" dataset
}

# ---- asking
# Says on descriptor 4 why there is no answer, between two bytes that no answer holds.
no_answer() { printf '%s%s%s' "$mark" "$1" "$mark" >&4; }

# Gives the program the first $1 bytes of the $3 $2 (- is standard input). One that can't be read is followed by a byte that no JSON text
# holds, so that its beginning is not stored.
take() {
    reason=$(head -c "$1" -- "$2" 2>&1 >&6)
    case $?${reason##*: } in
    0 | 141 | ?'Broken pipe') ;; # 141 and a broken pipe: the program ended first
    *)
        no_answer "the $3 $(show "$2") could not be read: ${reason##*: }"
        printf '%s' "$mark" 2> /dev/null
        ;;
    esac
}

# Runs the program: the answer is what it says, and its status. If $1 is given, it takes the standard output, and the answer is the rest.
run_program() {
    if [ -z "$1" ]; then
        "$program" 2>&1 4>&-
        printf 'status %s' "$?"
    else
        {
            "$program" 2>&4 4>&-
            printf 'status %s' "$?" >&4
        } | "$1"
    fi
}

# Asks `program`. It is given the line $1, or none, the stored table $4 of the length that the line tells, or none, then the file $2 up to one
# byte past the longest text. Sets `answer`: whole lines of an answer, each of which begins with one of the words $3. $5 as for run_program.
ask() {
    answer=$(
        {
            {
                [ -z "$1" ] || printf '%s\n' "$1"
                [ -z "${4-}" ] || take "$1" "$4" "stored table"
                take "$((longest + 1))" "$2" "text of"
            } 6>&1 | run_program "${5-}"
        } 4>&1
    )
    case $answer in
    *"$mark"*"$mark"*)
        reason=${answer#*"$mark"}
        fail "${reason%%"$mark"*}"
        ;;
    esac
    check_answer "$3"
}

# Asks `program` of the text on standard input as it arrives. The program reads it itself, so that nothing in between keeps bytes back, and what it
# says goes through $1. Sets `answer` as `ask` does, with the words $2.
ask_arriving() {
    answer=$(run_program "" | "$1")
    case $answer in
    *'the input could not be read to its end'*)
        reason=$(head -c 1 2>&1 > /dev/null) # which fails likewise
        fail "the text of \"-\" could not be read${reason:+: ${reason##*: }}"
        ;;
    esac
    check_answer "$2"
}

# `answer` is that of a program that ended well: whole lines, each of which begins with one of the words $1. Takes the status off it.
check_answer() {
    case $answer in
    *'status 0') answer=${answer%'status 0'} ;;
    *) fail "the program $(show "$program") ended with the status $(show "${answer##*status }")" ;;
    esac
    lines=$(printf '%s' "$answer" | wc -l)
    known=$(printf '%s' "$answer" | grep -acE "^($1)( |\$)")
    whole=$(printf '%s' "$answer" | tail -c 1 | od -An -t x1)
    if [ "$((lines))" -eq 0 ] || [ "$((lines))" -ne "$((known))" ] || [ "$whole" != ' 0a' ]; then
        fail "the program $(show "$program") gave no whole answer; its last line is $(show "$(printf '%s' "$answer" | tail -n 1)")"
    fi
}

# ---- the program behind a command
# the crates of this repository that a program is made of
crates_of() {
    awk -v want="$1" '
        { sub(/#.*/, "") }
        split($0, half, ":") == 2 { sub(/[ \t].*/, "", half[1]); below[half[1]] = half[2] }
        END {
            n = 1
            todo[1] = want
            for (i = 1; i <= n; i++) {
                if (!(todo[i] in below) || todo[i] in done) continue
                done[todo[i]] = 1
                print todo[i]
                m = split(below[todo[i]], names, " ")
                for (j = 1; j <= m; j++) todo[++n] = names[j]
            }
        }' crates.txt | sort
}

# One digest of a program's sources: their names and contents. So a source that was changed is seen, whatever the files' times are.
# shellcheck disable=SC2046 # crates' names are single words
sources_digest() {
    find $(crates_of "$1" | sed 's|.*|crates/&/src|') -type f -name '*.rt' | sort | xargs sha256sum | sha256sum | cut -d ' ' -f 1
}

program_digest() { sha256sum < "$1" | cut -d ' ' -f 1; }

# what stands beside a program in NAME.digests: its own digest and that of the sources it was built from
digests() { printf 'program %s\nsources %s\n' "$(program_digest "$1")" "$2"; }

# The program $1 was built from the sources with the digest $2, and runs here.
is_current() {
    [ -x "$1" ] && [ -r "$1.digests" ] || return 1
    [ "$(cat "$1.digests")" = "$(digests "$1" "$2")" ] || return 1
    case $(printf '\n' | "$1" 2>&1) in 'refused '[12]) return 0 ;; *) return 1 ;; esac
}

# Sets `program` to the program $1: that of bin/, or one built before, if it was built from the sources as they are; or it is built.
find_program() {
    for tool in awk find grep head od sed sha256sum stat xargs; do
        command -v "$tool" > /dev/null || fail "this command needs $tool, which is not on the PATH"
    done
    now=$(cd -- "$top" && sources_digest "$1")
    for program in "$top/bin/$1" "$top/target/bin/$1"; do
        is_current "$program" "$now" && return
    done
    build_program "$1"
}

# Proves and builds the program $1 and keeps it in target/bin/, one call at a time.
build_program() {
    command -v rt > /dev/null || fail "no program here was built from the sources as they are and runs on this machine; rt, which proves and builds it, is not on the PATH: install Rattle, or take the sources back that bin/$1 was built from"
    mkdir -p -- "$top/target/bin" || fail "the folder $(show "$top/target") can't be written, where the program is built"
    if command -v flock > /dev/null; then
        exec 9> "$top/target/building" || fail "the folder $(show "$top/target") can't be written, where the program is built"
        flock 9
        is_current "$program" "$now" && return
    fi
    left=$(cd -- "$top" && crates_of "$1" | wc -l)
    say "$name: proving and building the program from the sources, $((left)) crates; from nothing this takes 10 to 30 minutes"
    last=$(
        { cd -- "$top/crates/$1" && printf '\n' | rt run 2>&1 3>&- 9>&-; echo "status $?"; } | while IFS= read -r line; do
            case $line in
            'rt: chose --jobs '*' for '*)
                left=$((left - 1))
                say "$name: ${line##* for }, $left crates left"
                ;;
            *) printf '%s\n' "$line" ;;
            esac
        done | tail -n 12
    )
    case $last in
    *'status 0') ;;
    *)
        say "${last%status*}"
        fail "the build failed; the lines above are the last that rt wrote"
        ;;
    esac
    cp -- "$top/crates/$1/out/$1" "$program" || fail "the folder $(show "$top/target/bin") can't be written"
    [ "$(cd -- "$top" && sources_digest "$1")" = "$now" ] || fail "the sources were changed during the build; try again"
    digests "$program" "$now" > "$program.digests" || fail "the folder $(show "$top/target/bin") can't be written"
    is_current "$program" "$now" || fail "the program $(show "$program") was built and does not run on this machine, which is $(uname -sm); it is made for Linux x86_64"
}
