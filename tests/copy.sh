# tests/copy.sh, read with `.` by tests/install.sh and tests/dist.sh from the top folder: the tree as it stands in a folder of its own, and a prover for
# it. What is tried there is what stands around the archive; that the archive is proved, ./test says.

# files: those that git knows or would take, changed ones too; where the tree is no checkout, all but what was built
files() {
    if git rev-parse --git-dir >/dev/null 2>&1; then
        git ls-files --cached --others --exclude-standard | while IFS= read -r file; do [ ! -f "$file" ] || printf '%s\n' "$file"; done
    else
        find . \( -name target -o -path './crates/*/out' \) -prune -o -type f -print
    fi
}
# copy FOLDER: these files as one commit of a fixed date in a repository of its own
copy() {
    mkdir -p "$1"
    files | tar -c -T - -f - | tar -x -f - -C "$1"
    (cd "$1" && git init --quiet . && kept "a copy")
}
# kept TEXT: all that lies in this folder as a commit
kept() {
    git add -A
    GIT_AUTHOR_DATE='2026-01-02T03:04:05Z' GIT_COMMITTER_DATE='2026-01-02T03:04:05Z' \
        git -c user.name=n -c user.email=e@example.com -c commit.gpgsign=false commit --quiet --no-verify --allow-empty -m "$1"
}
# prover FOLDER ARCHIVE: a made-up rt in FOLDER, which finds all proved at once and hands over this archive
prover() {
    mkdir -p "$1"
    cat >"$1/rt" <<RT
#!/bin/sh
case \$1 in
version) echo 'made-up 1' ;;
all) echo '== summary' && echo 'zebrankai: ok' && echo '1 of 1 crates ok' ;;
lib) mkdir -p out && cp '$2' out/libzebrankai.a ;;
*) echo "rt: made-up, and asked for \$*" >&2 && exit 1 ;;
esac
RT
    chmod +x "$1/rt"
}
# without FOLDER PROGRAM: FOLDER, made anew, has all programs of the path but this one
without() {
    rm -rf "$1"
    mkdir -p "$1"
    printf '%s\n' "$PATH" | tr ':' '\n' | while read -r folder; do
        for program in "$folder"/*; do
            [ "${program##*/}" = "$2" ] || [ ! -x "$program" ] || [ -e "$1/${program##*/}" ] || ln -s "$program" "$1"
        done
    done
}
