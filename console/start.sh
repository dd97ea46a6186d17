# What the scripts of the console's programs share: where they stand, usage, building what is not built, input that can be read twice, and
# the status. A script sets `program`, `here` (the folder that it stands in, links followed) and `usage`, and reads this file.
# A program hands its verdict to its script as a digit, in the file that PAGYOLINT_VERDICT names, which is descriptor 3. 0 is that all was
# done and nothing refused, 1 that something was refused or differs, 2 that the program could not do its work. Where no verdict comes the
# status is 2.

if [ -e "$here/console/start.sh" ]; then
    checkout=$here
    programs=$here/target/bin
    reference=$here/crates/checklist/data/reference.sheet
    version_file=$here/VERSION
else
    checkout=
    programs=$here/../libexec/pagyolint
    reference=$here/../share/pagyolint/reference.sheet
    version_file=$here/../share/pagyolint/VERSION
fi

# A message on standard error.
say() {
    printf '%s: %s\n' "$program" "$*" >&2
}

# The program could not do its work.
fail() {
    say "$@"
    exit 2
}

# It was called in another way than it can be.
misused() {
    say "$@"
    printf '%s\n' "$usage" >&2
    exit 2
}

# What an option common to all programs asks for; the status is 1 if it is none of them.
common_option() {
    case $1 in
    -h | --help)
        printf '%s\n' "$usage" || fail "standard output: cannot be written"
        exit 0
        ;;
    --version)
        printf '%s %s\n' "$program" "$(cat "$version_file")" || fail "standard output: cannot be written"
        exit 0
        ;;
    esac
    return 1
}

# A sum of all that programs are built from.
sources() {
    (
        cd "$checkout" || exit 1
        files=$(find crates/*/src -name '*.rt' | LC_ALL=C sort)
        { printf '%s\n' "$files" && cat crates.txt $files; } | cksum
    )
}

# Passes on which crate is proved, of how many, and keeps all that was said.
progress() {
    count=0
    crate=
    while IFS= read -r line; do
        printf '%s\n' "$line" >&8
        case $line in
        'crate '*': modules '*)
            crate=${line#crate }
            crate=${crate%%:*}
            ;;
        'logic=proved'*)
            count=$((count + 1))
            say "  $count of $1: $crate proved"
            ;;
        'logic='*) say "  $crate NOT PROVED" ;;
        esac
    done
}

# Proves and builds a program, with the checkout's lock held. `rt run` runs it too, on nothing.
build() {
    log=$checkout/target/console/$program.log
    sum=$1
    if ! { mkdir -p "$checkout/target/console" && true >"$log"; } 2>/dev/null; then
        fail "the program is not built, and $checkout cannot be written to: use an installed copy, or a checkout of your own"
    fi
    command -v rt >/dev/null || fail "the program is not built, and the Rattle toolchain (rt), which proves and builds it, is not there: use an installed copy"
    # How many crates are told: the program's own, and of those that it depends on the ones that are the checkout's.
    crates=$(awk -v name="$program" -F: '/^[a-z]/ { needs[$1] = $2 } END { for (i = split(needs[name], all, " "); i > 0; i--) n += all[i] in needs; print n + 1 }' "$checkout/crates.txt")
    say "proving and building the program from its sources: $2."
    say "this is done once for these sources, and takes many minutes where nothing is proved yet; $log has all that is said"
    status=$(
        exec 7>&1 8>"$log"
        { (cd "$checkout/crates/$program" && rt run </dev/null 2>&1) && echo 0 >&7 || echo 1 >&7; } | progress "$crates" 7>&-
    )
    if [ "$status" != 0 ]; then
        grep -v -e ': proved$' -e '^logic' -e '^library' "$log" | tail -n 40 >&2
        fail "the program could not be built"
    fi
    # The program is put in its place in one step, since an older one may be running there.
    if ! { mkdir -p "$programs" && cp "$checkout/crates/$program/out/$program" "$programs/$program.new" && mv -f "$programs/$program.new" "$programs/$program"; }; then
        fail "the program was built and could not be put into $programs"
    fi
    printf '%s\n' "$sum" >"$checkout/target/console/$program.built"
}

# Whether the program is there and was built from these sources.
current() {
    [ -x "$programs/$program" ] && [ -e "$checkout/target/console/$program.built" ] && [ "$(cat "$checkout/target/console/$program.built")" = "$1" ]
}

# Sees to it that the program is there, and that no other version of its sources made it.
ready() {
    if [ -z "$checkout" ]; then
        [ -x "$programs/$program" ] || fail "the program is not there: $programs/$program"
        return
    fi
    now=$(sources) || fail "the sources cannot be read: $checkout"
    current "$now" && return
    why='it is not built yet'
    if [ -e "$checkout/target/console/$program.built" ]; then
        why='they are not those that it was built from'
    fi
    # One build at a time on one checkout; the lock goes with its process.
    exec 9<"$checkout/crates.txt"
    if ! flock -n 9; then
        say "another program is being built from this checkout; waiting for it"
        flock 9
    fi
    current "$now" || build "$now" "$why"
    exec 9<&-
}

room=
links=
trap '[ -z "$room" ] || rm -rf "$room"' EXIT
trap 'exit 129' HUP
trap 'exit 130' INT
trap 'exit 143' TERM

# Standard input is there.
input_open() {
    (exec 5<&0) 2>/dev/null || fail "standard input is closed"
}

# The folder for what is kept while the script runs, here $1.
make_room() {
    [ -z "$room" ] || return 0
    room=$(mktemp -d "${TMPDIR:-/tmp}/pagyolint.XXXXXX" 2>/dev/null) || fail "no folder can be made in ${TMPDIR:-/tmp} to keep $1 in"
}

# Whether a path is UTF-8.
is_text() {
    (
        LC_ALL=C
        export LC_ALL
        case $1 in
        *[!\ -~]*) printf %s "$1" | iconv -f UTF-8 -t UTF-8 >/dev/null 2>&1 ;;
        esac
    )
}

# The programs open only paths that are UTF-8: another `path`, of $1, becomes that of a link to it.
text_path() {
    if is_text "$path"; then
        return
    fi
    make_room "$1"
    case $path in /*) ;; *) path=$PWD/$path ;; esac
    links=${links}x
    ln -s "$path" "$room/link$links" || exit 2
    path=$room/link$links
}

# Input as a file that can be read twice: `path`, and `name`, which is empty for standard input. A pipe or a device is read to its end
# first; a regular file, a folder and what is not there are left to the program.
input() {
    path=$1
    name=$1
    if [ "$1" = - ]; then
        name=
        input_open
        if [ -t 0 ]; then
            say "waiting for $2 on standard input; Ctrl-D on a line of its own ends it"
        fi
    elif [ -f "$1" ] || [ -d "$1" ] || [ ! -e "$1" ]; then
        case $path in -*) path=./$path ;; esac
        text_path "$2"
        return
    fi
    make_room "$2"
    path=$(mktemp "$room/XXXXXX") || exit 2
    if [ "$1" = - ]; then
        said=$(cat 2>&1 >"$path") || fail "standard input: ${said##*: }"
    else
        said=$(cat -- "$1" 2>&1 >"$path") || fail "$1: ${said##*: }"
    fi
}

# Runs the program, and ends with its verdict as status.
run() {
    (exec 5>&1) 2>/dev/null || fail "standard output is closed"
    # A reader that goes away is told like any other output that fails.
    trap '' PIPE
    exec 4>&1
    verdict=$(PAGYOLINT_VERDICT=/dev/fd/3 "$programs/$program" "$@" 3>&1 >&4 4>&-)
    ended=$?
    case $ended:$verdict in
    0:[012]) exit "$verdict" ;;
    esac
    fail "the program ended without a verdict (status $ended)"
}
