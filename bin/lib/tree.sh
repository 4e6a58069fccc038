# What bin/boc, bin/boc-view and bin/install know of the tree: whether it is the one that a manifest tells of. It is read by a POSIX shell
# and takes the coreutils alone.
#
# A manifest has five lines of words, each behind a `#`, then a line of sha256sum for each program and for each file that they are
# proved and built from, and a last line `# end`. bin/lib/tree.py writes it.

MANIFEST=dist/MANIFEST
SHIPPED=dist/boc-x86_64-linux
SHIPPED_VIEW=dist/boc-view-x86_64-linux
BUILT_MANIFEST=crates/boc/out/MANIFEST
BUILT=crates/boc/out/boc
BUILT_VIEW=crates/boc_view/out/boc_view
REMEDY='`git checkout dist` brings it back; bin/build and then bin/ship make it anew'

# Says what is wrong and what to do, and gives no answer. Who says it stands in `caller`.
refuse() {
    status=$1
    shift
    for line; do
        echo "$caller: $line" >&2
    done
    exit "$status"
}

# The files that a manifest names, one a line.
files_of() {
    head -n -1 "$1" | tail -n +6 | cut -c67-
}

# What a manifest says behind a word, as `kit` or `version`.
said_of() {
    head -n 5 "$1" | while read -r mark word rest; do
        if [ "$mark $word" = "# $2:" ]; then
            echo "$rest"
        fi
    done
}

# Whether a manifest of a program is there and whole. What is wrong with it is left in `fault`.
is_whole() {
    fault=
    if ! [ -f "$1" ] || ! [ -r "$1" ]; then
        fault="$1 is missing"
    elif [ "$(tail -n 1 "$1")" != "# end" ] || [ "$(tail -n 1 "$1" | wc -l)" -ne 1 ]; then
        fault="$1 is cut off: its last line is not \`# end\`"
    elif [ "$(said_of "$1" files)" != "$(files_of "$1" | sort -u | wc -l | tr -d ' ')" ] ||
        [ "$(said_of "$1" files)" != "$(files_of "$1" | wc -l | tr -d ' ')" ]; then
        fault="$1 is cut off: it names fewer files than it says, or more"
    elif [ "$(files_of "$1" | head -n 1)" != "$2" ]; then
        fault="$1 does not begin with $2"
    fi
    [ -z "$fault" ]
}

# Whether every file that a whole manifest names has the bytes that it says. The first one that has not is left in
# `differing`, and in `lacking` where it isn't there or can't be read. Neither has it where nothing could be compared.
is_tree_of() {
    differing=
    lacking=
    if compared=$(LC_ALL=C sha256sum -c --quiet --strict "$1" 2> /dev/null); then
        return 0
    fi
    first=$(printf '%s\n' "$compared" | head -n 1)
    case $first in
    *': FAILED open or read') lacking=${first%: FAILED open or read} ;;
    *': FAILED') differing=${first%: FAILED} ;;
    esac
    return 1
}

# Whether the processor, the system and its C library run the program. Where they don't, what is wanted is left in `fault`.
runs_here() {
    fault=
    case $(uname -sm) in
    'Linux x86_64') "./$1" --version > /dev/null 2>&1 || fault="it does not start here" ;;
    *) fault="this is $(uname -sm)" ;;
    esac
    if [ -n "$fault" ]; then
        fault="$1 is for x86-64 Linux with the GNU C library, version 2.34 or later, and $fault"
        return 1
    fi
}

# Refuses where dist/ has no whole manifest.
want_manifest() {
    is_whole "$MANIFEST" "$SHIPPED" || refuse 70 "$fault" "$REMEDY"
}

# Refuses where it is a shipped program that differs from its manifest, or where sha256sum could compare nothing.
want_program() {
    case $differing$lacking in
    "$SHIPPED" | "$SHIPPED_VIEW")
        refuse 70 "$differing$lacking is not the program that $MANIFEST tells of, or can't be read" "$REMEDY"
        ;;
    '') refuse 70 "sha256sum can't compare what $MANIFEST names: it isn't there, or a line of the manifest is none of its lines" "$REMEDY" ;;
    esac
}

# Refuses where a shipped program may not be run, or does not run here, for which there are further lines.
want_running() {
    for shipped in "$SHIPPED" "$SHIPPED_VIEW"; do
        [ -x "$shipped" ] || refuse 70 "$shipped may not be run" "\`chmod +x $shipped\` lets it run"
    done
    runs_here "$SHIPPED" || refuse 70 "$fault" "$@"
}
