# Tells whether a program of built/ is made from what stands in the repository: for ./s66 and tools/build.sh, which read this file.
#
# Programs stand in built/, which rt leaves alone: those that are proved and built by the names of their crates, and as `tried` s66_main
# as it is compiled without proofs. Beside each stands a file with the ending `.of`, its mark: as old as the beginning of the build, with
# the folders that the program is made from, the sum of their files, the program's own, and the toolchain, a line each.

# Whether each of these parts is no newer than the mark, as far as folders show it.
look_older() {
    for it in "$@"; do
        [ ! "$root/$it" -nt "$mark" ] || return
    done
}

# Whether a program is built, and made from what stands there. To look at each file takes longer than a small answer: a call looks at the
# folders alone, which show most changes, if another has looked at the files in the last two seconds. Proofs aren't looked at: they are
# most of the files, and no change of them makes another program of what was proved.
is_current() {
    mark=$root/built/$1.of
    [ -x "$root/built/$1" ] && read -r parts <"$mark" || return
    read -r now it </proc/uptime && now=${now%.*} && read -r last <"$mark.seen" &&
        [ "$last" -le "$now" ] && [ "$now" -lt $((last + 2)) ] && look_older $parts && return
    newer=$(cd "$root" && find $parts -newer "built/$1.of") && { [ -z "$newer" ] || is_same <"$mark"; } || return
    echo "$now" >"$mark.seen" || :
} 2>/dev/null

# Whether the files that are newer than the mark make no other program, since the same stands in them: a checkout gives them another
# time. The mark, which is read here, then gets the time at which that was begun, whether or not another one has replaced it meanwhile.
is_same() {
    begun=$(date +%s) && read -r parts && read -r sum && [ "$sum" = "$(sum_of)" ] && { touch -d "@$begun" /dev/stdin || :; }
}

# The sum of the files of these parts and their names.
sum_of() {
    (cd "$root" && find $parts -type f | LC_ALL=C sort -u | tr '\n' '\0' | xargs -0 sha256sum | sha256sum)
}

# Whether the program that stands in built/ is the one that its mark tells of.
is_whole() {
    [ "$(sed -n 3p "$root/built/$1.of")" = "$(sha256sum <"$root/built/$1")" ]
} 2>/dev/null
