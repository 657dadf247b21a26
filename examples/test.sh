# The samples, run by './cedarlash test': what the program for files lists, and what it refuses.

# Whether the listing of a sample is the one expected: its folder, then the names of its files.
sample() {
    folder=$1
    shift
    if (cd "examples/$folder" && list "$@") >"target/$folder.listing" && cmp "target/$folder.listing" "examples/$folder/expected.txt"; then
        echo "cedarlash: the listing of examples/$folder is as expected"
    else
        echo "cedarlash: the listing of examples/$folder is NOT as expected"
        return 1
    fi
}

# Whether these arguments are refused, with status 2 and nothing on standard output.
refused() {
    wrote=$(list "$@" 2>/dev/null) && status=0 || status=$?
    [ "$status" -eq 2 ] && [ -z "$wrote" ] && return
    echo "cedarlash: 'list $*' should have been refused with status 2 (status $status)"
    return 1
}

# Whether these arguments give the one line of refusal 1.
too_many() {
    [ "$(list "$@")" = "$(printf 'X\t1\t0\t0')" ] && return
    echo "cedarlash: 'list $*' should have been refused by 1"
    return 1
}

samples() {
    s=examples/paper/stream.bed
    head -c 65536 /dev/zero >target/large.bed
    sample panel genome.txt targets.bed calls.bed coverage.bed &&
        sample paper list.txt bases.bed stream.bed &&
        refused &&
        refused examples/paper/list.txt examples/paper/bases.bed &&
        refused examples/paper/list.txt examples/paper/bases.bed examples/paper/none.bed &&
        refused examples/paper/list.txt examples/paper $s &&
        too_many examples/paper/list.txt examples/paper/bases.bed $s $s $s $s $s $s $s $s $s &&
        too_many examples/paper/list.txt examples/paper/bases.bed target/large.bed
}
