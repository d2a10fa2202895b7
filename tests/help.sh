#!/bin/sh
# The commands of the top folder say what they do: with --help and with -h on standard output, with exit code 0; with words that make no sense on
# standard error, with exit code 2. None of them starts anything then: rt, cargo and the compilers are not on the path here, and no file is written.
set -eu
cd "$(dirname "$0")/.."
top=$PWD
work=$(mktemp -d)
trap 'rm -rf "$work"' EXIT
fail() {
    echo "FAIL help: $*"
    exit 1
}
# a path with nothing on it that proves or builds: each of these would leave a mark
mkdir "$work/bin"
for tool in rt cargo rustc gcc g++ cc; do
    printf '#!/bin/sh\necho %s >>"%s/started"\nexit 1\n' "$tool" "$work" >"$work/bin/$tool"
    chmod +x "$work/bin/$tool"
done
passed=0
# said COMMAND STATUS WORDS..: it ends with this exit code and starts nothing; what it says is in out and err
said() {
    command=$1 due=$2
    shift 2
    status=0
    PATH=$work/bin:$PATH "./$command" "$@" >"$work/out" 2>"$work/err" </dev/null || status=$?
    [ ! -e "$work/started" ] || fail "./$command $*: it started $(sort -u "$work/started" | tr '\n' ' ')"
    [ "$status" -eq "$due" ] || fail "./$command $*: exit code $status, not $due"
    passed=$((passed + 1))
}
for command in demo test show-figures bench install; do
    for word in --help -h; do
        said "$command" 0 "$word"
        [ ! -s "$work/err" ] || fail "./$command $word: it wrote to standard error"
        head -n 1 "$work/out" | grep -q "^usage: \./$command" || fail "./$command $word: the first line is not its usage"
        [ "$(wc -l <"$work/out")" -ge 3 ] || fail "./$command $word: less than three lines"
        if grep -q '.\{90\}' "$work/out"; then fail "./$command $word: a line of 90 bytes or more"; fi
    done
    # words that make no sense
    for word in --no-such-word two; do
        case $word in two) said "$command" 2 one two ;; *) said "$command" 2 "$word" ;; esac
        [ ! -s "$work/out" ] || fail "./$command $word: it wrote to standard output"
        grep -q "^usage: \./$command" "$work/err" || fail "./$command $word: it does not say its usage"
    done
    # from another folder
    (cd "$work" && PATH=$work/bin:$PATH "$top/$command" --help >"$work/there")
    "./$command" --help | cmp -s - "$work/there" || fail "./$command --help from another folder"
done
# the script sees a command that starts something
status=0
printf '#!/bin/sh\nrt check\n' >"$work/starts"
chmod +x "$work/starts"
PATH=$work/bin:$PATH "$work/starts" || status=$?
if [ "$status" -eq 0 ] || [ ! -s "$work/started" ]; then fail "a command that starts rt is not seen"; fi
echo "ok help: $passed calls of five commands"
