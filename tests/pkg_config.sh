#!/bin/sh
# sh tests/pkg_config.sh FOLDER: prints the folder of pkg-config; where it is not on the machine, it writes one to FOLDER/bin that does with our files what
# pkg-config does: variables, quotes and spaces. It knows `--cflags --libs MODULE` alone.
set -eu
if command -v pkg-config >/dev/null; then
    dirname "$(command -v pkg-config)"
    exit 0
fi
echo "skipped pkg-config: it is not on this machine; the words are read from its file" >&2
mkdir -p "$1/bin"
cat >"$1/bin/pkg-config" <<'SCRIPT'
#!/bin/sh
for module; do :; done
awk -v pcfiledir="$PKG_CONFIG_PATH" 'BEGIN { gsub(/ /, "\\ ", pcfiledir); is["pcfiledir"] = pcfiledir }
    /^[a-z]+=/ { at = index($0, "="); is[substr($0, 1, at - 1)] = substr($0, at + 1); next }
    /^(Cflags|Libs): / { sub(/^[A-Za-z]+: /, ""); line = line " " $0 }
    function whole(s,    v) { for (v in is) while (at = index(s, "${" v "}")) s = substr(s, 1, at - 1) is[v] substr(s, at + length(v) + 3); return s }
    END {
        line = whole(whole(whole(line))); quoted = 0
        for (i = 1; i <= length(line); i++) {
            c = substr(line, i, 1)
            if (c == "\"") quoted = !quoted; else printf "%s", (quoted && c == " " ? "\\ " : c)
        }
        print ""
    }' "$PKG_CONFIG_PATH/$module.pc"
SCRIPT
chmod +x "$1/bin/pkg-config"
echo "$1/bin"
