#!/usr/bin/env bash
# tests/report.sh: the script ./report in a checkout of its own, whose rt proves nothing and whose report program prints what the
# file `prints` says. Prints how many cases passed.
set -euo pipefail
export LC_ALL=C
cd "$(dirname "${BASH_SOURCE[0]}")"
work=$(mktemp -d)
trap 'rm -rf "$work"' EXIT
passed=0

# A checkout: the script, an example, and a PATH with nothing but what is put there.
mkdir -p "$work/checkout/examples/loan-sheet" "$work/checkout/crates/report/out" "$work/tools" "$work/elsewhere/loan" "$work/empty"
cp ../report "$work/checkout/report"
touch "$work/checkout/examples/loan-sheet/script" "$work/elsewhere/loan/groups"
for tool in bash cat dirname env mkdir readlink sed tee; do ln -s "$(command -v "$tool")" "$work/tools/$tool"; done
printf '#!/bin/sh\nexit 0\n' >"$work/tools/cc"
cat >"$work/tools/rt" <<'EOF'
#!/bin/sh
[ "$*" = run ] && [ -x ../../report ] && [ -d out ] || exit 9
echo 'crate calculus: modules loaded=0 checked=33'
echo 'logic=proved functions=1'
echo 'logic=proved functions=2'
echo 'crate rules: modules loaded=0 checked=33'
echo 'logic=not-proved functions=1'
EOF
printf '#!/bin/sh\ncat "%s"\n' "$work/prints" >"$work/checkout/crates/report/out/report"
chmod +x "$work/tools/cc" "$work/tools/rt" "$work/checkout/crates/report/out/report"

fail() {
    printf 'report.sh: %s\n' "$*" >&2
    sed 's/^/  /' "$work/told" >&2
    exit 1
}

# try NAME STATUS TOLD COMMAND..: the command's status, and a text that stands in what it tells on standard error.
try() {
    local name=$1 wanted=$2 told=$3 status=0
    shift 3
    "$@" >"$work/printed" 2>"$work/told" || status=$?
    [ "$status" = "$wanted" ] || fail "$name: exits with $status and not with $wanted"
    case $(cat "$work/told") in *"$told"*) ;; *) fail "$name: doesn't tell '$told'" ;; esac
    passed=$((passed + 1))
}
# The last one printed exactly this.
printed() {
    printf '%b' "$1" | cmp -s - "$work/printed" || fail "it prints something else: $(cat "$work/printed")"
}
report() { env PATH="$work/tools" "$work/checkout/report" "$@"; }

printf 'accepted 3\nend 0 steps 2 records 2\n' >"$work/prints"
try 'no argument' 0 'The report of examples/loan-sheet' report
printed 'accepted 3\nend 0 steps 2 records 2\n'
[ "$(grep -c ' proved$' "$work/told")" = 1 ] && grep -q '^  calculus proved$' "$work/told" || fail "a crate that is proved isn't named, or another is"
try 'a folder' 0 "The report of $work/elsewhere/loan" report "$work/elsewhere/loan"

cd "$work/elsewhere"
try 'from elsewhere' 0 'The report of' report loan
try 'CDPATH' 0 "The report of $work/elsewhere/loan" env CDPATH="$work:$work/checkout" PATH="$work/tools" ../checkout/report loan
printed 'accepted 3\nend 0 steps 2 records 2\n'
ln -s ../checkout/report by-link
try 'a link' 0 'The report of examples/loan-sheet' env PATH="$work/tools" ./by-link
printed 'accepted 3\nend 0 steps 2 records 2\n'
mkdir './a folder'
touch './a folder/types'
try 'a blank' 0 'a folder' report 'a folder'

printf 'refused 22 at 2\n' >"$work/prints"
try 'refused' 1 'The report of' report loan
printed 'refused 22 at 2\n'
: >"$work/prints"
try 'nothing printed' 2 'printed nothing' report loan
printed ''
printf 'gone\n' >"$work/prints"
try 'no report' 2 'that is no report' report loan
printf 'accepted 3\n' >"$work/prints"

try 'help' 2 'usage: report [FOLDER]' report --help
try 'an option' 2 'usage: report [FOLDER]' report -v
try 'two folders' 2 'usage: report [FOLDER]' report loan loan
try 'no name' 2 'usage: report [FOLDER]' report ''
try 'no folder' 2 'there is no folder gone' report gone
try 'a file' 2 'loan/groups is no folder' report loan/groups
try 'none of the files' 2 'has none of the files' report "$work/empty"
touch "$work/empty/words"
try 'words alone' 2 'has none of the files' report "$work/empty"

mv "$work/tools/rt" "$work/rt"
try 'no rt' 2 'there is no rt' report loan
printf '#!/bin/sh\nexit 1\n' >"$work/tools/rt"
chmod +x "$work/tools/rt"
try 'not proved' 2 'is not proved' report loan
mv "$work/rt" "$work/tools/rt"
mv "$work/tools/cc" "$work/cc"
try 'no cc' 2 'there is no cc' report loan
mv "$work/cc" "$work/tools/cc"
mv "$work/checkout/target" "$work/checkout/kept"
touch "$work/checkout/target"
try 'unwritable' 2 "can't be written" report loan

printf '%d passed, 0 failed\n' "$passed"
