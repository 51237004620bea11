# Read by the tests of the scripts that tools/program.sh makes: `statuses NAME SAMPLE LINES` tries the script ./NAME,
# which reads one file or standard input, on every status and message that tools/program.sh names. It uses
# $here and the folder $room, and sets failed=1 where one is not as it should be.

# case_of TITLE STATUS COMMAND...: what it writes goes to $room/wrote, what it says to $room/said
case_of() {
    title=$1 wanted=$2 status=0
    shift 2
    timeout 900 "$@" > "$room/wrote" 2> "$room/said" || status=$?
    if [ "$status" -ne "$wanted" ]; then
        echo "FAILED: $title: the status is $status, not $wanted"
        cat "$room/said"
        failed=1
    fi
}

# held WHAT COMMAND...: a fact about the case before
held() {
    what=$1
    shift
    if ! "$@"; then echo "FAILED: $title: $what"; failed=1; fi
}

says() { [ "$(wc -l < "$room/said")" -eq 1 ] && grep -q "$1" "$room/said"; }
is_silent() { [ ! -s "$room/said" ]; }
wrote_nothing() { [ ! -s "$room/wrote" ]; }

statuses() {
    script=$here/$1 sample=$2 lines=$3
    case_of "$1: a result" 0 "$script" "$sample"
    held "the sample's lines" cmp -s "$room/wrote" "$lines"
    held "nothing is said" is_silent
    case_of "$1: standard input" 0 sh -c '"$0" < "$1"' "$script" "$sample"
    held "the sample's lines" cmp -s "$room/wrote" "$lines"
    held "nothing is said" is_silent
    cp "$sample" "$(printf '%s/\377' "$room")"
    case_of "$1: a name that is no UTF-8" 0 "$script" "$(printf '%s/\377' "$room")"
    held "the sample's lines" cmp -s "$room/wrote" "$lines"
    held "nothing is said" is_silent
    case_of "$1: no such file" 1 "$script" "$room/none"
    held "it is said" says "none: No such file"
    held "no line is written" wrote_nothing
    case_of "$1: a folder" 1 "$script" "$room"
    held "it is said" says "directory"
    held "no line is written" wrote_nothing
    case_of "$1: a closed standard input" 1 timeout 60 sh -c '"$0" <&-' "$script"
    held "it is said" says "standard input: "
    if [ -w /dev/full ]; then
        case_of "$1: what cannot be written" 1 sh -c '"$0" "$1" > /dev/full' "$script" "$sample"
        held "it is said" says "write: "
    fi
    case_of "$1: two files" 2 "$script" "$sample" "$sample"
    held "it is said" grep -q "2 files are named, and it takes 1" "$room/said"
    held "no line is written" wrote_nothing
    case_of "$1: an option that there is not" 2 "$script" -v
    held "it is said" grep -q "there is no option -v" "$room/said"
    case_of "$1: --help" 0 "$script" --help
    held "the usage is written" grep -q "^usage: ./$1 \[FILE\]$" "$room/wrote"
    held "nothing is said" is_silent
    mkdir -p "$room/other"
    printf '#!/bin/sh\necho another\n' > "$room/other/rt"
    chmod +x "$room/other/rt"
    case_of "$1: another toolchain" 3 env PATH="$room/other:$PATH" "$script" "$sample"
    held "it is said" says "'rt version' says 'another'"
    held "no line is written" wrote_nothing
    case_of "$1: a terminal" 0 python3 "$here/tests/terminal.py" "$script"
    held "one line says what is waited for" says "$1: waiting for .* on standard input"
    case_of "$1: a file, at a terminal" 0 python3 "$here/tests/terminal.py" "$script" "$sample"
    held "nothing is said" is_silent
}
