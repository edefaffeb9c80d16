# Hands the program on: for ./s66 release and ./s66 install, which read this file. A release is a folder that needs neither rt nor sources:
# the program that was proved, the script with what it reads, the manual page with the documents that this names, completions, and
# VERSION, by which `sha256sum -c VERSION` checks all other files.

. "$root/tools/room.sh"
[ -n "$released" ] || . "$root/tools/mark.sh"

released_files='s66 tools/room.sh tools/usage.sh tools/improve.sh tools/release.sh docs/s66.1 docs/TUTORIAL.md docs/RECIPES.md
    docs/SCOREBOARD.md docs/FORMATS.md docs/PROMISES.md docs/completion/s66.bash docs/completion/_s66 docs/completion/s66.fish'

# What install links in its folder, and where to, one a line.
links='bin/s66 ../lib/s66/s66
    share/man/man1/s66.1 ../../../lib/s66/docs/s66.1
    share/bash-completion/completions/s66 ../../../lib/s66/docs/completion/s66.bash
    share/zsh/site-functions/_s66 ../../../lib/s66/docs/completion/_s66
    share/fish/vendor_completions.d/s66.fish ../../../lib/s66/docs/completion/s66.fish'

# The files of a release but VERSION, one a line.
list_files() {
    if [ -n "$released" ]; then
        sed -n 's/^[0-9a-f]\{64\}  //p' "$root/VERSION"
    else
        printf '%s\n' built/s66_main $released_files && (cd "$root" && find docs/help -type f) | LC_ALL=C sort
    fi
}

# The commit that a release is made of, as far as git knows it.
name_commit() {
    commit=$(git -C "$root" rev-parse HEAD) && changed=$(git -C "$root" status --porcelain -- crates crates.txt s66 tools docs) ||
        commit=unknown
    echo "$commit${changed:+, with changes}"
} 2>/dev/null

# Prints VERSION of a release that is made of the sources: what it is, and the checksums of its files.
make_version() {
    sed 's/^/# /' "$root/docs/help/version"
    echo "# commit $commit"
    echo "# proved and built by $(sed -n 4p "$built.of")"
    echo "# for Linux on x86-64 with glibc 2.34; sha256sum -c VERSION checks these files:"
    list_files | (cd "$made" && xargs sha256sum)
}

# Copies what a release has to the folder $made. Anybody can read it.
fill_release() {
    list_files | (cd "$root" && xargs cp --parents -t "$made") && chmod -R u=rwX,go=rX "$made" || return
    if [ -n "$released" ]; then cp "$root/VERSION" "$made"; else make_version >"$made/VERSION"; fi
}

# Whether the program in that folder is the one that was proved: by VERSION of the release that it comes from, or by the mark.
is_proved() {
    if [ -n "$released" ]; then
        (cd "$made" && sha256sum -c --status VERSION)
    else
        is_current s66_main && [ "$(sed -n 3p "$built.of")" = "$(sha256sum <"$made/built/s66_main")" ]
    fi
} 2>/dev/null

# Whether all that stands in a folder is of a release, by its VERSION, or an earlier one that was left when an install was killed.
is_release() {
    [ ! -L "$1" ] && head -n 1 "$1/VERSION" | grep -q '^# s66 ' && listed=$(sed -n 's|^[0-9a-f]\{64\}  |./|p' "$1/VERSION") &&
        ! (cd "$1" && find . -path ./before -prune -o ! -type d ! -path ./VERSION -print) | grep -qvxF -e "$listed"
} 2>/dev/null

# Puts the release $made into a place. An earlier one that stands there goes into it, to be removed; if that fails, it stays.
swap() {
    trap '' HUP INT TERM
    [ ! -f "$1/VERSION" ] || mv -T -- "$1" "$made/before" || return
    mv -T -- "$made" "$1" && return
    [ ! -d "$made/before" ] || mv -T -- "$made/before" "$1"
    return 1
}

# Makes a new folder beside a place. Its name is known before it is made: what ends the script removes it.
make_beside() {
    parent=$(dirname -- "$1")
    mkdir -p -- "$parent" && parent=$(cd -- "$parent" && pwd) && made=$(mktemp -u -- "$parent/$(basename -- "$1").XXXXXX") &&
        mkdir -m 700 -- "$made" && return
    made=
    return 1
}

# Makes a release beside its place, checks it, and puts it there, in the place of nothing, an empty folder, or an earlier release.
put_release() {
    root=$(cd "$root" && pwd)
    built=$root/built/s66_main
    made=
    trap 'rm -rf -- "$made"' EXIT
    trap 'exit 129' HUP
    trap 'exit 130' INT
    trap 'exit 143' TERM
    commit=$(name_commit)
    [ -n "$released" ] || { rm -f "$built.of.seen" && is_current s66_main; } ||
        fail "the program isn't proved as its sources stand: $0 build does that"
    no_answer=6
    make_beside "$1" 2>/dev/null || fail "no release can be put into $1"
    why=$(fill_release 2>&1) || fail "no release can be put into $1: $why"
    [ -z "$released" ] && cure=": $0 build builds it" || cure=
    is_proved || { no_answer=1 && fail "$built isn't the program that was proved$cure"; }
    why=$(swap "$1" 2>&1) || fail "no release can be put into $1: $why"
    made=$1/before
}

# Writes a release into a new folder.
hand_on_release() {
    [ $# -eq 2 ] || refuse_files "release takes one folder, to be made"
    set -- "${2%/}"
    [ ! -e "$1" ] || [ -z "$(ls -A -- "$1" 2>&1)" ] || refuse_files "$1: it is there already"
    put_release "$1"
    printf 's66: %s\n' "$(sed 's/^# //; q' "$1/VERSION") is in $1" >&2
}

# Refuses to install where something stands in a place that no install has put there.
look_before() {
    { [ ! -e "$prefix/lib/s66" ] && [ ! -L "$prefix/lib/s66" ]; } || is_release "$prefix/lib/s66" ||
        fail "$prefix/lib/s66: it is there already, and is no release"
    echo "$links" | while read -r link to; do
        { [ ! -e "$prefix/$link" ] && [ ! -L "$prefix/$link" ]; } || [ "$(readlink -- "$prefix/$link")" = "$to" ] ||
            fail "$prefix/$link: it is there already, and no install has put it there"
    done || exit
}

# Puts a release into a folder's lib, and links to it where a shell, man and completion look.
hand_on_install() {
    [ $# -le 2 ] || refuse_files "install takes one folder"
    [ $# -eq 2 ] || [ -n "${HOME-}" ] || refuse_files "install takes a folder where HOME names none"
    prefix=${2:-$HOME/.local}
    look_before
    put_release "$prefix/lib/s66"
    prefix=$(cd -- "$prefix" && pwd)
    echo "$links" | while read -r link to; do
        why=$(mkdir -p "$prefix/${link%/*}" 2>&1 && ln -sfT "$to" "$prefix/$link" 2>&1) || fail "$prefix/$link can't be made: $why"
    done || exit
    printf 's66: %s\n' "$(sed 's/^# //; q' "$prefix/lib/s66/VERSION") is in $prefix/lib/s66, with links in bin and share" >&2
    case :$PATH: in
    *":$prefix/bin:"*) ;;
    *) printf 's66: %s\n' "PATH=\$PATH:$prefix/bin lets this shell find it" >&2 ;;
    esac
}
