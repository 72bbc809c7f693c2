# Functions that the example scripts share. A script sets `here` to its own folder and sources this
# file. Names come from users: they are passed as arguments after `--`, and printed by `shown`.

# Temporary files end so. Process numbers would collide: a container has the same ones at each start,
# and a killed run leaves its files.
temporary=.$RANDOM$RANDOM$RANDOM.new

# `run` passes standard input on, which must be open
{ : <&0; } 2> /dev/null || exec < /dev/null

# fail WHY [STATUS]: print why on standard error, and exit
fail() {
    printf '%s: %s\n' "${0##*/}" "$1" >&2
    exit "${2:-1}"
}

# usage: print the first lines of the script, which say how to call it; an installed command has
# another name
usage() {
    local name='s,examples/\([a-z]*\)_\([a-z]*\),astc_tool-\1-\2,g'
    [[ $here == */libexec/astc_tool ]] || name=
    sed -n "2,/^set /{/^#/{$name
        s/^# \\?//p}}" "$0"
    exit 2
}

# has_format NAME: whether a name has signs that change how a terminal shows others, or that no one
# sees: U+00AD U+061C U+180E U+200B-F U+2028-E U+2060-F U+FEFF U+FFF9-B and tags, as bytes of UTF-8
has_format() {
    local LC_ALL=C
    [[ $1 == *$'\xc2\xad'* || $1 == *$'\xd8\x9c'* || $1 == *$'\xe1\xa0\x8e'* ||
        $1 == *$'\xe2\x80'[$'\x8b'-$'\x8f'$'\xa8'-$'\xae']* ||
        $1 == *$'\xe2\x81'[$'\xa0'-$'\xaf']* || $1 == *$'\xef\xbb\xbf'* ||
        $1 == *$'\xef\xbf'[$'\xb9'-$'\xbb']* || $1 == *$'\xf3\xa0'[$'\x80'-$'\x81']* ]]
}

# shown NAME: print a name for a message: as it is, or as bash's $'..' if a terminal may act on it
shown() {
    if [[ $1 == *[![:print:]]* ]] || has_format "$1"; then
        LC_ALL=C printf '%q' "$1"
    else
        printf '%s' "$1"
    fi
}

# find_program: set `program` to the one that ASTC_TOOL names, else to the one that ./build left or
# that is installed with the script, else to the one on the path
find_program() {
    local built=$here/../crates/astc_tool/out/astc_tool
    [[ $here != */libexec/astc_tool ]] || built=$here/../../bin/astc_tool
    if [ -n "${ASTC_TOOL+named}" ]; then
        program=$(type -P -- "$ASTC_TOOL") ||
            fail "ASTC_TOOL does not name a program: '$(shown "$ASTC_TOOL")'" 2
    elif [ -x "$built" ]; then
        program=$built
    else
        program=$(type -P astc_tool) ||
            fail 'astc_tool is missing: run ./build or ./try, or set ASTC_TOOL to its path' 2
    fi
    [[ $program == /* ]] || program=$PWD/$program
}

# resolve NAME: set `resolved` to the absolute name, without links
resolve() {
    resolved=$(realpath -- "$1" && echo .) || exit 6
    resolved=${resolved%$'\n.'}
}

# run WORD ..: run a command, and return its status. When the script ends, so does the command: it
# cannot create a file that `clear_room` has already removed. The command's own name is without its
# folder, since astc_tool takes no word that is not UTF-8.
run() {
    local status=0
    (exec -a "${1##*/}" -- "$@") <&0 &
    wait "$!" || status=$?
    return "$status"
}

# make_room: set `room` to a new folder, which is removed at the end with all files in `beside`
make_room() {
    local folder=${TMPDIR:-/tmp}
    [[ $folder == /* ]] || folder=$PWD/$folder
    make_folder "$folder/${0##*/}"
}

# make_room_beside OUT: make the room in the folder of OUT, so that other machines see it too
make_room_beside() {
    local folder=${1%/*}
    [[ $1 == */* ]] || folder=$PWD
    make_folder "$folder/parts"
}

# make_folder START: set `room` to a new folder with a name that begins so. The name is known and
# the trap is set before the folder exists.
make_folder() {
    beside=()
    room=$1.$RANDOM$RANDOM$RANDOM
    trap clear_room EXIT
    trap 'exit 131' QUIT
    run mkdir -m 700 -- "$room" || { room=; exit 6; }
}

# clear_room: end the command that still runs, and remove what the script made
clear_room() {
    local child
    for child in $(jobs -p); do # not a number that `run` notes: a signal may come before it does
        kill "$child" 2> /dev/null || true
    done
    wait
    rm -rf -- ${room:+"$room"} ${beside[@]+"${beside[@]}"}
}

# reserve OUT: set `made` to the name of an empty file beside OUT, which `put_in_place` renames to
# OUT in one step. OUT is then unchanged or complete, whenever the script is stopped, and `make`
# never takes an incomplete file for a complete one. Devices and pipes are written directly.
reserve() {
    local to=$1
    if [ -L "$to" ]; then
        to=$(readlink -f -- "$to" && echo .) || exit 6
        to=${to%$'\n.'}
    fi
    made=$to
    [ ! -e "$to" ] || [ -f "$to" ] || return 0
    made=$to$temporary
    beside+=("$made")
    set -o noclobber
    { : > "$made"; } 2> /dev/null ||
        { unset 'beside[-1]'; fail "cannot create $(shown "$made")" 6; }
    set +o noclobber
}

# put_in_place MADE: rename a file to the name that it was reserved for
put_in_place() {
    [[ $1 != *"$temporary" ]] || mv -fT -- "$1" "${1%"$temporary"}"
}

# refuse_advice WORD ..: for scripts that pack in parts
refuse_advice() {
    [[ " $* " != *" advised "* ]] ||
        fail "parts cannot use advised, which passes results from block to block: use fitted" 2
}
