# Puts files in the best order found: for ./s66 improve, which reads this file.

. "$root/tools/room.sh"

# Says why a file stays as it is, and gives the status of that.
stays() {
    tell "$name" "$1"
    return "$2"
}

# Rights, owner and group of a file.
rights_of() {
    LC_ALL=C ls -dn -- "$1" | awk 'NR == 1 { print $1, $3, $4 }'
}

# Makes a new file beside a place. Its name is known before it is made: what ends the script removes it.
make_beside() {
    beside=$(mktemp -u -- "$1.XXXXXX" && echo .) && beside=${beside%??} && (set -C && : >"$beside") && return
    beside=
    return 1
}

# Puts the new text into the place of a file that still has the old one. It is written beside the file and then renamed, so that each
# step leaves a file that is whole, with its rights and owner. A name may end in a newline.
replace() {
    place=$(readlink -f -- "$1" && echo .) && place=${place%??} && [ -w "$place" ] && make_beside "$place" && cp -p -- "$place" "$beside" &&
        [ "$(rights_of "$beside")" = "$(rights_of "$place")" ] && cat "$room/new" >"$beside" && cmp -s "$room/old" "$place" &&
        mv -f -- "$beside" "$place" && beside= && return
    rm -f -- "$beside"
    beside=
    return 1
} 2>/dev/null

# Puts switches around the code of a text that order could harm. A control character in those of an earlier guard tells them from
# the ones that this adds, so that they stay when these are taken out.
put_switches() {
    LC_ALL=C sed "s/^\(\*S66 O[NF]* \)G\(UARD\)/\1$marked\2/" "$1" | "$program" guard
}

# Takes them out again.
take_switches() {
    LC_ALL=C sed -e '/^\*S66 O[NF]* GUARD/d' -e "s/^\(\*S66 O[NF]* \)$marked\(UARD\)/\1G\2/" "$1"
}

# Prints the lines of the old text that end, without a last one that doesn't.
ended_lines() {
    if [ -n "$(tail -c 1 "$room/old")" ]; then sed '$d' "$room/old"; else cat "$room/old"; fi
}

# Ends the lines of the new text in carriage returns, which order leaves out, if all of the old one do.
keep_ends() {
    ! LC_ALL=C grep -aq "$cr\$" "$room/old" || ended_lines | LC_ALL=C grep -aqv "$cr\$" ||
        { sed "s/\$/$cr/" "$room/new" >"$room/ended" && mv "$room/ended" "$room/new"; }
}

# Makes the new text of the old one, and gives the status of order. What order tells after a success isn't told, since it is of what the
# switches leave.
make_new() {
    { told=$(put_switches "$room/old" 2>&1 >&4 4>&-); } 4>"$room/guarded"
    last=$?
    tell "$name" "$told"
    [ "$last" -eq 0 ] || return "$last"
    { told=$("$program" order --cut --deep --keep --columns --quiet "$@" <"$room/guarded" 2>&1 >&4 4>&-); } 4>"$room/ordered"
    last=$?
    case $last in
    0 | 7) take_switches "$room/ordered" >"$room/new" || stays "it can't be copied to $room" 6 || return ;;
    *) tell "$name" "$told" ;;
    esac
    return "$last"
}

# Leaves of the lines that guard adds before a region one, without its reason: another order may list the same causes in another order.
without_reasons() {
    LC_ALL=C awk '/^\*S66 OFF GUARD/ { if (!was) print "*S66 OFF GUARD"; was = 1; next } { was = 0; print }'
}

# Takes of the options of order those that compare has too: the profile.
take_profile() {
    unset profile
    while [ $# -gt 0 ]; do
        case $1 in
        --profile=*) profile=${1#*=} ;;
        --*=*) ;;
        *)
            [ "$1" != --profile ] || profile=${2-}
            shift
            ;;
        esac
        [ $# -eq 0 ] || shift
    done
}

# Whether the new text can be taken, and what that saves: if guard finds the same code in it again, so that another run harms none
# either, and if compare accepts it, byte for byte.
accept_new() {
    without_reasons <"$room/ordered" >"$room/bare" || stays "it can't be copied to $room" 6 || return
    put_switches "$room/new" 2>/dev/null | without_reasons | cmp -s - "$room/bare" ||
        stays "guard leaves other code alone in what order makes of it" 5 || return
    keep_ends || stays "it can't be copied to $room" 6 || return
    ! is_parted "$room/old" || stays "it has a line *S66 NEW, by which compare parts two sources" 3 || return
    take_profile "$@"
    join_sources "$room/old" "$room/new" | "$program" compare --cut ${profile+"--profile=$profile"} >"$room/compared" 2>&1 ||
        stays "compare doesn't accept what order makes of it" 5 || return
    saved=$(awk '
        / ORDER / { moved++ }
        /^TOTAL / { print $5 (moved ? " to " $10 " in " moved " of " $3 " blocks" : ", nothing to save") }
    ' "$room/compared")
}

# Prints the new text, behind the file's name if there are several. The status is 141 if nobody reads it any longer.
print_new() (
    [ "$file_count" -le 1 ] || print_name
    cat "$room/new"
) 2>/dev/null

# Improves one file: prints its new text, or says what that saves, and with -i writes it.
improve_file() {
    file=$1
    take_name "$1"
    shift 2
    case $mode,$file in
    -[in],-) stays "standard input is no file" 2 || return ;;
    -[in],*) [ ! -e "$file" ] || [ -d "$file" ] || [ -f "$file" ] || stays "it is no file that can be written in place" 2 || return ;;
    esac
    (open_file "$file" && cat) >"$room/old" || {
        can_read "$file" 2>/dev/null && stays "it can't be copied to $room" 6
        return 6
    }
    make_new "$@"
    ordered=$?
    [ "$ordered" -eq 0 ] || [ "$ordered" -eq 7 ] || return "$ordered"
    accept_new "$@" || return
    [ "$ordered" -eq 0 ] || saved="$saved; some block may be faster still"
    if [ "$mode" = print ]; then
        print_new
        case $? in
        0) return "$ordered" ;;
        141) exit 6 ;;
        *) tell_unwritten && return 6 ;;
        esac
    fi
    last=0
    case $mode,$saved in
    *nothing*) ;;
    -n,*) last=1 ;;
    -i,*)
        replace "$file" || {
            cmp -s "$room/old" "$file" && why="it can't be written" || why="it has changed meanwhile"
            stays "$why" 6 || return
        }
        ;;
    esac
    printf '%s: %s\n' "$name" "$saved" 2>/dev/null || { tell_unwritten; last=6; }
    return "$last"
}

# Improves each file in turn, and ends with the worst status; at once with 6 if nobody reads the output any longer. Nobody else can read
# what is under way.
improve() {
    beside=
    cr=$(printf '\r')
    marked=$(printf '\001')
    no_answer=6
    umask 077
    make_room
    trap 'rm -f -- "$beside"; clear_room' EXIT
    trap 'exit 6' PIPE
    status=0
    eval "for file in $files; do
        improve_file \"\$file\" $options
        keep_worse \$?
    done"
    exit "$status"
}
