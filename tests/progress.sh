#!/bin/sh
# tests/prove_archive.sh itself, with a made-up prover in a temporary folder: what it shows on a terminal and elsewhere, that an archive which is
# proved is not proved again, that a changed file is, and what it shows where a crate is not proved. Takes some seconds.
set -eu
cd "$(dirname "$0")/.."
top=$PWD
work=$(mktemp -d)
trap 'rm -rf "$work"' EXIT
fail() { echo "FAIL progress: $*"; exit 1; }
unset ZBK_ARCHIVE

# fourteen crates, of which the archive rests on twelve: ten in a chain, and two beside it
mkdir -p "$work/tests" "$work/bin"
cp tests/prove_archive.sh tests/made_of.sh tests/jobs.sh "$work/tests"
{
    echo '# made-up: crates'
    echo 'c1: lists'
    for i in 2 3 4 5 6 7 8 9; do echo "c$i: c$((i - 1)) # one more"; done
    echo 'archive_store: c9'
    echo 'c10: c4'
    echo 'c11: c1 c10'
    echo 'other: c3'
    echo 'zebrankai staticlib: archive_store c11'
} >"$work/crates.txt"
for crate in c1 c2 c3 c4 c5 c6 c7 c8 c9 archive_store c10 c11 zebrankai; do
    mkdir -p "$work/crates/$crate/src"
    echo "of $crate" >"$work/crates/$crate/src/lib.rt"
done
cat >"$work/bin/rt" <<'END'
#!/bin/sh
# c2 and the archive are done once the progress has told of it, where a run waits for that (C2 and LAST: what it is to say), or after half a minute;
# a crate whose file says 'wrong' is not proved, and those after it are not come to
told() {
    tries=0
    until [ -z "$1" ] || tr '\r' '\n' <"$SAID" | grep -q -e "$1" || [ "$tries" -ge 150 ]; do sleep 0.2 && tries=$((tries + 1)); done
}
echo "$(basename "$PWD"): $*" >>"$CALLS"
case $1 in
version) echo 'made-up 1' ;;
all)
    failed=
    for crate in c1 c2 c3 c4 c5 c6 c7 c8 c9 archive_store c10 c11 zebrankai; do
        if [ -n "$failed" ]; then
            echo "$crate: not run, since $failed failed" >>"$CALLS.summary"
            continue
        fi
        [ "$crate" != c2 ] || told "$C2"
        echo "== $crate"
        echo "fn $crate::f: proved"
        if grep -q wrong "../$crate/src/lib.rt"; then
            echo "$crate: error: a fact fails"
            echo "$crate: failed (1)" >>"$CALLS.summary"
            failed=$crate
        else
            echo "$crate: ok" >>"$CALLS.summary"
        fi
    done
    echo '== summary'
    cat "$CALLS.summary"
    rm "$CALLS.summary"
    echo 'so many of 13 crates ok'
    [ -z "$failed" ]
    ;;
lib)
    told "$LAST"
    mkdir -p out
    cat ../*/src/lib.rt >out/libzebrankai.a
    ;;
esac
END
chmod +x "$work/bin/rt"
CALLS=$work/calls
SAID=$work/said
C2=
LAST='^proved 1[0123] of'
PATH=$work/bin:$PATH
export CALLS SAID C2 LAST PATH
cd "$work"
# prove: runs it; what it says on standard error is in the file said
prove() { : >calls; sh tests/prove_archive.sh >out 2>said; }
control() { LC_ALL=C tr -d '\n -~' <said | wc -c | tr -d ' '; }

# elsewhere than on a terminal: lines, and no control characters
prove || fail "the made-up crates are not proved: $(cat said)"
[ ! -s out ] || fail "it wrote to standard output"
[ "$(control)" -eq 0 ] || fail "control characters where there is no terminal"
sed 's/[0-9]:[0-9][0-9]/M:SS/; s/^proved 1[0123] of/proved 1x of/' said >plain
cat >expected <<'END'
proving and building the archive, 13 crates: from nothing it takes a while
proved 1x of 13 crates, M:SS so far, less than a minute to go
the archive is proved and built, 13 crates in M:SS
END
diff expected plain || fail "other lines where there is no terminal"
[ "$(grep -c '^zebrankai: all check --jobs [0-9]*$' calls)" -eq 1 ] || fail "the crates were not proved once: $(cat calls)"
grep -qx 'zebrankai: lib --cpu=x86-64' calls || fail "the archive was not built"
[ -f target/staticlib/libzebrankai.a ] || fail "there is no archive"

LAST=
# proved already: one line, and the prover is not asked
prove
[ "$(cat said)" = 'the archive is proved and built' ] || fail "more than a line where all is proved: $(cat said)"
! grep -q -e ': all' -e ': lib' calls || fail "proved again though nothing changed"

# a changed file of a crate below it, a changed archive, one crate more: proved again. A comment in crates.txt, a file of another crate: not
again() { prove; grep -q ': lib --cpu=x86-64$' calls || fail "not proved again: $1"; }
as_it_was() { prove; ! grep -q ': lib --cpu=x86-64$' calls || fail "proved again: $1"; }
echo 'more' >>crates/c7/src/lib.rt
again "a changed file"
echo 'more' >>target/staticlib/libzebrankai.a
again "a changed archive"
sed 's/^c11: c1 c10/c11: c1 c9 c10/' crates.txt >other.txt && mv other.txt crates.txt
again "another dependency"
echo '# the end' >>crates.txt
as_it_was "a comment"
mkdir -p crates/other/src && echo 'of other' >crates/other/src/lib.rt
as_it_was "a file of another crate"

# not proved: what the prover said of that crate is shown, and of no other
echo 'wrong' >>crates/c5/src/lib.rt
! prove || fail "a crate that is not proved is let pass"
grep -qx 'c5: error: a fact fails' said || fail "what the prover said is not shown: $(cat said)"
grep -qx 'c5: failed (1)' said || fail "the prover's summary is not shown: $(cat said)"
! grep -q 'c4' said || fail "a crate that is proved is shown: $(cat said)"
grep -q '^fn c4::f: proved' target/prove_archive.log || fail "the log does not have all"
tail -n 1 said | grep -q '^the archive could not be proved and built' || fail "it does not say that it failed"
echo 'of c5' >crates/c5/src/lib.rt
again "a file put right"
# nor one beside the chain
echo 'wrong' >>crates/c10/src/lib.rt
! prove || fail "a crate beside the chain that is not proved is let pass"
grep -qx 'c10: error: a fact fails' said || fail "what the prover said of a crate beside the chain is not shown: $(cat said)"
! grep -q -e c4 -e c11 said || fail "another crate is shown: $(cat said)"
! grep -q ': lib --cpu=x86-64$' calls || fail "the archive was built though a crate is not proved"
echo 'of c10' >crates/c10/src/lib.rt
again "a file beside the chain put right"

# no prover
if (PATH=/usr/bin:/bin && ! command -v rt >/dev/null); then
    ! PATH=/usr/bin:/bin sh tests/prove_archive.sh 2>said || fail "it passes without a prover"
    grep -q '^rt, the Rattle toolchain, is not on the path$' said || fail "it does not say that there is no prover: $(cat said)"
fi

# on a terminal: one line that is kept up to date, and nothing left of it
if command -v script >/dev/null && script --version 2>/dev/null | grep -q util-linux; then
    echo 'again' >>crates/c1/src/lib.rt
    C2='proved 1 of 13'
    LAST='proved 13 of 13'
    TERM=xterm script -qec 'sh tests/prove_archive.sh' /dev/null >said </dev/null || fail "on a terminal it is not proved: $(cat said)"
    [ "$(wc -l <said)" -eq 2 ] || fail "on a terminal more than a first and a last line: $(cat said)"
    tr '\r' '\n' <said | grep -q 'proved 1 of 13 crates, 0:[0-9][0-9] so far' || fail "it does not say how far it is: $(cat said)"
    tr '\r' '\n' <said | grep -q 'proved 13 of 13 crates, 0:[0-9][0-9] so far' || fail "nor that all crates are proved: $(cat said)"
    tail -n 1 said | tr '\r' '\n' | tail -n 2 | grep -q "^$(printf '\033')\[Kthe archive is proved and built, 13 crates in 0:[0-9][0-9]" \
        || fail "the line is not cleared at the end: $(tail -n 1 said | od -c | head)"
else
    echo "skipped the line on a terminal: no command 'script' to make one"
fi
cd "$top"
echo "ok the progress of proving the archive"
