# The rest of bin/boc, for a tree that was not looked at yet, or has changed since.

. bin/lib/tree.sh

caller=bin/boc

# Finds the program that is of the tree's sources, builds it where there is none, and leaves its place in `program`.
check() {
    want_manifest
    if is_tree_of "$MANIFEST"; then
        want_running "where the Rattle kit is, bin/build makes one for it: $BUILT"
        program=$SHIPPED
        note "$MANIFEST"
        return
    fi
    want_program
    changed=$differing
    gone=$lacking
    program=$BUILT
    if ! is_built; then
        build
        is_built || refuse 70 "the sources have changed while they were proved and built; call it again"
    fi
    note "$BUILT_MANIFEST"
}

# Whether what was built here is of the tree's sources.
is_built() {
    is_whole "$BUILT_MANIFEST" "$BUILT" && is_tree_of "$BUILT_MANIFEST" && [ -x "$BUILT" ] && [ -x "$BUILT_VIEW" ]
}

# Proves and builds the programs from the sources as they are, of which `changed` differs from the manifest, or `gone` isn't there.
build() {
    [ -z "$gone" ] || refuse 70 "$MANIFEST names a file that isn't there, or can't be read: $gone" \
        "\`git checkout -- $gone\` brings it back; where it is to be gone, bin/build and then bin/ship make dist anew"
    for tool in rt python3; do
        command -v "$tool" > /dev/null || refuse 127 \
            "the sources are not those of $MANIFEST, first $changed, so they have to be proved and built, and $tool is not on the PATH" \
            "that takes the Rattle kit and python3; or bring $changed back, as by \`git checkout -- $changed\` where its change isn't committed"
    done
    echo "bin/boc: the sources are not those of $MANIFEST, first $changed; proving and building them, which takes a while" >&2
    bin/build || refuse 70 "the build failed"
}

# Notes when each source and definition of a manifest was last changed, and the program, if it can: later calls compare with that.
# A changed proof changes neither the program nor what is promised of it, so only a first call looks at those. Nothing is noted of a
# tree that changes meanwhile; the pause is longer than a tick of the clock that these times come from.
note() {
    files=$1
    for file in $(files_of "$1"); do
        case $file in
        */proofs/*) ;;
        *) files="$files $file" ;;
        esac
    done
    # shellcheck disable=SC2086
    seen=$(stat -Lc %.Z $files 2>&1)
    sleep 0.02
    is_tree_of "$1" || return
    new=.boc-checked.$$
    {
        echo '# the tree as it was compared'
        echo "program=$program"
        echo "look() { stat -Lc %.Z $files; }"
        echo "seen='$seen'"
    } 2> /dev/null > "$new" && mv -f "$new" .boc-checked 2> /dev/null || rm -f "$new" 2> /dev/null
}
