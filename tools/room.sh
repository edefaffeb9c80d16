# What the scripts of this repository and of a release share: how they fail, and the folder for what is under way.

# Says why it can't go on, and ends: with 126 if there is no program that could answer.
fail() {
    printf '%s: %s\n' "${0##*/}" "$1" >&2
    exit "${no_answer:-1}"
}

# Makes the folder $room for all that is under way, that of rt too, and copies of decks: nobody else can read there. However the script
# ends, what it started is ended, and the folder removed; its name is known before it is made, so that a signal meanwhile leaves none.
make_room() {
    running=
    room=
    trap clear_room EXIT
    trap 'exit 129' HUP
    trap 'exit 130' INT
    trap 'exit 141' PIPE
    trap 'exit 143' TERM
    room=$(mktemp -u) && mkdir -m 700 -- "$room" 2>/dev/null || {
        room=
        fail "no folder can be made for what is under way"
    }
}

# Ends what runs, and removes $room. What rt started ends an instant after rt, and may have written until then.
clear_room() {
    trap '' HUP INT PIPE TERM
    if [ -n "$running" ]; then
        kill -s TERM "$!" 2>/dev/null
        kill -s TERM -- "-$!" 2>/dev/null
        wait "$!" 2>/dev/null
    fi
    [ -z "$room" ] || rm -rf "$room" 2>/dev/null || { sleep 1 && rm -rf "$room"; }
}
