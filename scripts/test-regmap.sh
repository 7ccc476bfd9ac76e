#!/bin/bash
# test-regmap.sh [TOOL]: runs the built tool (./regmap) on what people do wrong or expect: files, locks, full disks, odd names, wrong
# words. Each case says what it shows; prints how many passed, and fails if one did not. It is no part of the gate, which runs
# crates/regmap/data/gate.run; what that can show stands there. It needs python3.
set -u
top=$(cd "$(dirname "$0")/.." && pwd)
tool=$(realpath "${1:-$top/regmap}")
room=$(mktemp -d)
trap 'rm -rf "$room"' EXIT
cd "$room" || exit 2
D=49c1d66f39002ec817bc0751bedc5f0dce7ae6c863029a6ce83cf7fd523e4139
passed=0 failed=0

# try STATUS TEXT WORDS..: the tool's status, and a text that it must have printed on either output ('' for any). Its standard input is the
# file $in, if that is set.
try() {
  local status=$1 text=$2 got
  shift 2
  "$tool" "$@" >out 2>err <"${in:-/dev/null}"
  got=$?
  if [ "$got" = "$status" ] && { [ -z "$text" ] || grep -qF -e "$text" out err; }; then passed=$((passed + 1)); return 0; fi
  failed=$((failed + 1))
  echo "FAILED: regmap $*: status $got, wanted $status and: $text"
  sed 's/^/    /' out err
}
holds() { # WHAT COMMAND..
  local what=$1
  shift
  if "$@"; then passed=$((passed + 1)); else failed=$((failed + 1)); echo "FAILED: $what"; fi
}
fresh() { cp "$top/examples/uart.map" . && rm -f u.store && "$tool" build uart.map u.store >/dev/null; }

# ---- 1. what is written over
fresh && cp u.store kept.store && cp uart.map kept.map
try 2 'is no witness' witness u.store u.store 008.CTRL
ln -f u.store other.name && try 2 'is no witness' full u.store other.name
ln -sf u.store link.store && try 2 'is no witness' full u.store link.store
try 2 'is no store' build uart.map uart.map
try 2 'is no store' build uart.map ./uart.map
try 2 'is no witness' full u.store uart.map
holds 'a refused OUT changed its input' cmp -s u.store kept.store
holds 'a refused OUT changed its map' cmp -s uart.map kept.map
mkdir -p folder && try 2 'it is a folder' full u.store folder
try 2 'standard output' full u.store /dev/stdout
try 2 'is no file' full u.store /dev/null
mkfifo pipe && try 2 'is no witness' full u.store pipe
"$tool" full u.store - >dash.witness 2>dash.said
holds 'an OUT of - is not standard output' cmp -s dash.witness "$top/examples/full.witness"
holds 'what is said goes not beside it' grep -q '296 bytes' dash.said
holds '- is not standard input' test "$("$tool" root - <u.store)" = "$D"
try 2 'no file that can be changed' set - 008.CTRL 00
try 0 '' set link.store 008.CTRL 0008200300000003
holds 'a link was replaced' test -L link.store
holds 'a link was not written through' test "$("$tool" get u.store 008.CTRL)" = 0008200300000003
try 0 '' full u.store again.witness
try 0 '' full u.store again.witness

# ---- 2. six at once, five rounds: what said done is in the store
for round in 1 2 3 4 5; do
  "$tool" build uart.map busy.store --capacity 64 >/dev/null
  for i in 1 2 3 4 5 6; do
    ("$tool" add busy.store "9$round$i" "0$i" >/dev/null 2>&1 && echo "9$round$i" >>done.$round) &
  done
  wait
  while read -r name; do
    holds "round $round: $name was said to be done and is lost" "$tool" get busy.store "$name" >/dev/null
  done <done.$round
  holds "round $round: nobody was done" test -s done.$round
  holds "round $round: a lock is left" test ! -e busy.store.new
done
touch u.store.new && try 2 'another run is at work' set u.store 008.CTRL 00
holds 'the .new of another run was removed' test -e u.store.new
rm u.store.new

# ---- 3. what can't be written
if [ -w /dev/full ]; then
  for words in 'list u.store' 'read again.witness' 'dot again.witness' 'root u.store' '--help'; do
    # shellcheck disable=SC2086
    "$tool" $words >/dev/full 2>err
    holds "regmap $words to a full disk" test $? = 2
    holds "regmap $words to a full disk says nothing" grep -q 'the disk is full' err
  done
fi
"$tool" list u.store | head -n 1 >/dev/null
holds 'a reader that stopped is a fault' test "${PIPESTATUS[0]}" != 2
fresh
"$tool" list u.store >list.map
holds 'list ends with no count' grep -qx '# 12 registers' <(tail -n 1 list.map)
try 0 "$D" build list.map l.store
sed '$d' list.map | sed '$d' >short.map && try 1 'the map has 11 registers' build short.map l.store
sed 5d list.map >short.map && try 1 'cut short or changed' build short.map l.store

# ---- 4 and 17. what is shown, and told apart
try 0 '008.CTLR is not in the map: its neighbours are shown, values hidden: 004.STATUS 008.CTRL' witness u.store ctrl.w 008.CTLR
try 0 '0 registers shown with their values, 2 by name alone' check ctrl.w $D
try 0 '1 register shown with its value, 0 by name alone; 4 parts hidden' witness u.store one.w 008.CTRL
try 1 'set changes a register; add makes a new one' set u.store 008.CTLR 00
try 1 'is there already' add u.store 008.CTRL 00
python3 -c "import sys; sys.stdout.buffer.write(bytes.fromhex('8020' + '$D'))" >nothing.w
try 0 'it shows no register; 1 part hidden' check nothing.w $D
try 0 '014 is no register: it is a bound' range u.store r.w 00c 014 --values
try 1 'is a witness and no store' get one.w 008.CTRL
try 1 'is a store and no witness' check u.store $D
od -An -v -tx1 one.w | tr -d ' \n' >hex.w && try 1 'Text out of a mail' check hex.w $D
try 1 'If it is a map' root uart.map
try 0 'compared with nothing' read one.w
try 0 'it matches the digest given' read one.w $D
try 1 'does not match' read one.w "${D%9}8"
try 0 'nothing between' dot ctrl.w
try 0 'matches the root digest' dot ctrl.w $D
try 0 'compared with nothing' dot ctrl.w
try 0 'It matches the root digest' html ctrl.w $D
holds 'the page does not mark the gap' grep -q 'nothing between' out
try 1 'It does NOT match' html ctrl.w "${D%9}8"
printf '%s one.w\n# a comment\n%s  ctrl.w\n' $D $D >digests && try 0 'ctrl.w matches' check -c digests
printf '%s one.w\n%s r.w\n' "${D%9}8" $D >digests && try 1 'one.w does not match' check -c digests
holds 'check -c stops at the first' grep -q 'r.w matches' out

# ---- 5. names
printf '\357\273\277A 01\nB 02\n' >m.map && try 1 'm.map:1: a byte-order mark' build m.map m.store
printf 'B 02\nA\302\240 01\n' >m.map && try 1 'm.map:2: the name has the byte c2' build m.map m.store
printf 'A\001 01\n' >m.map && try 1 'm.map:1: the name has a zero byte or the byte 01' build m.map m.store
printf 'A\000B 01\n' >m.map && try 1 'm.map:1: the name has a zero byte or the byte 01' build m.map m.store
printf 'A\177 01\n' >m.map && try 1 'the name has the byte 7f' build m.map m.store
printf 'A 0\0001\n' >m.map && try 1 'is no hex' build m.map m.store
printf 'hex:c3a9 01\nA 02\n' >m.map && try 0 '2 registers' build m.map m.store
printf '# caf\303\251\r\nA\t01\r\n' >m.map && try 0 '1 register' build m.map n.store
printf 'A 01\nB 01\nhex:41 02\n' >m.map && try 1 'm.map:3: hex:41 stood in line 1 with another value' build m.map m.store
try 2 'is no name' add u.store $'caf\303\251' 00
python3 -c 'for i in range(1025): print(f"{i:04x} 00")' >big.map && try 1 'big.map:1025: there is no slot left for 0400' build big.map b.store
sed -i '$d' big.map && try 0 '1024 registers' build big.map b.store

# ---- 6. the program without its script says how it ended
if [ -x "$top/crates/regmap/out/regmap" ] && [ "$(uname -m)" = x86_64 ]; then
  holds 'the program alone does not say ok' test "$("$top/crates/regmap/out/regmap" check one.w $D | tail -n 1)" = ok
  holds 'the program alone does not say refused' test "$("$top/crates/regmap/out/regmap" check one.w "${D%9}8" 2>&1 | tail -n 1)" = refused
  holds 'the program alone does not say failed' test "$("$top/crates/regmap/out/regmap" root none 2>&1 | tail -n 1)" = failed
fi

# ---- 7. modes
fresh && chmod 600 u.store && try 0 '' set u.store 008.CTRL 00
holds 'a mode was opened' test "$(stat -c %a u.store)" = 600
chmod 640 u.store && try 0 '' build uart.map u.store
holds 'a mode was not kept' test "$(stat -c %a u.store)" = 640
chmod 444 u.store && try 2 'may not be written' set u.store 008.CTRL 01
holds 'a file that may not be written was' test "$("$tool" get u.store 008.CTRL)" = 0008200300000000
chmod 644 u.store

# ---- 9 and 10. words
try 2 'did you mean check' chekc one.w
try 2 'did you mean check' CHECK one.w
try 2 'frobnicate is no command' frobnicate
try 2 'too few words: get STORE NAME' get u.store
try 2 'extra is one word too many: get STORE NAME' get u.store X extra
try 2 '--capacity=16 is one word too many' build uart.map u.store --capacity=16
try 2 '--value is one word too many' range u.store w 00c 014 --value
try 2 '--values is no option here: full STORE OUT' full u.store --values
holds 'a file named --values' test ! -e --values
for words in --help -h help 'root --help' 'list -h'; do
  # shellcheck disable=SC2086
  try 0 'build MAP STORE' $words
  holds "regmap $words goes not to standard output" grep -q 'build MAP STORE' out
done
try 0 "regmap $(sed -n 's/^#define DAMPCANDLE_VERSION "\(.*\)"/\1/p' "$top/include/dampcandle.h")" --version
try 2 '' ''
try 1 'refused (7)' get u.store ''
try 0 '0 registers shown with their values, 12 by name alone' prefix u.store all.w ''
try 0 '' range u.store low.w '' 014 --values
try 2 'the words are too long' get u.store "$(head -c 20000 /dev/zero | tr '\0' x)"
try 2 'no line of a file that is run' run <(echo 'run x')

# ---- JSON, and the verifier of others
for words in 'list u.store' "check one.w $D" 'read one.w' "read ctrl.w $D"; do
  # shellcheck disable=SC2086
  "$tool" $words --json >out.json
  holds "regmap $words --json is no JSON" python3 -c 'import json,sys; json.load(open("out.json"))'
done
for w in "$top"/examples/*.witness all.w low.w r.w; do
  holds "verify.py does not take $w" python3 "$top/examples/verify.py" "$w" $D >/dev/null
done
holds 'verify.py takes a wrong digest' bash -c "! python3 '$top/examples/verify.py' one.w ${D%9}8 >/dev/null"

# ---- ask and merge
fresh
"$tool" witness u.store ask.w 008.CTRL >/dev/null
"$tool" range u.store hole.w 00d 013 >/dev/null
try 0 '008.CTRL = ' ask ask.w $D 008.CTRL
try 0 'there is no register 010' ask hole.w $D 010
try 1 'does not say' ask ask.w $D 010
try 1 'does not match' ask ask.w ${D%9}8 008.CTRL
cp ask.w kept.w
try 0 $D merge ask.w hole.w both.w
try 0 '008.CTRL = ' ask both.w $D 008.CTRL
try 0 'there is no register 010' ask both.w $D 010
holds 'a merge changed its input' cmp -s ask.w kept.w
"$tool" merge hole.w ask.w turned.w >/dev/null
holds 'the order of two witnesses matters' cmp -s both.w turned.w
printf '004.A 00\n' >other.map && "$tool" build other.map o.store >/dev/null && "$tool" full o.store o.w >/dev/null
try 1 '(15)' merge ask.w o.w none.w
holds 'a refused merge wrote' test ! -e none.w
try 2 'is no witness' merge ask.w hole.w uart.map
chmod 600 both.w && "$tool" merge ask.w hole.w both.w >/dev/null
holds 'merge changed a mode' test "$(stat -c %a both.w)" = 600
ln -sf both.w link.w && "$tool" merge ask.w ask.w link.w >/dev/null
holds 'merge wrote over a link' test -L link.w
holds 'merge with itself' cmp -s both.w ask.w
chmod 400 both.w
try 2 'may not be written' merge ask.w hole.w both.w
holds 'a file that may not be written was' cmp -s both.w ask.w
chmod 600 both.w

# ---- check -: a witness as it comes, of any length, up to the first byte that makes it none
fresh
"$tool" full u.store f.w >/dev/null
in=f.w try 0 '12 registers shown with their values' check - $D
in=f.w try 1 'does not match' check - ${D%9}8
in=f.w try 0 '"matches": true' check - $D --json
head -c 100 f.w >cut.w && in=cut.w try 1 'it ended after 100 bytes' check - $D
in=/dev/null try 1 'it ended after 0 bytes' check - $D
{ cat f.w; echo; } >more.w && in=more.w try 1 'the byte at offset 296 makes it no witness' check - $D
in=u.store try 1 'is a store and no witness' check - $D
in=u.store try 1 'the byte at offset 0 makes it no witness' check - $D
in=$room try 2 'it is a folder' check - $D
for n in 1 7 100; do
  python3 -c "import sys,time
w=open('f.w','rb').read()
for i in range(0,len(w),$n): sys.stdout.buffer.write(w[i:i+$n]); sys.stdout.flush(); time.sleep(0.001)" | "$tool" check - $D >out 2>err
  holds "check - of parts of $n bytes" grep -q '12 registers shown' out
done
{ printf '\140\101'; yes; } | timeout 60 "$tool" check - $D >out 2>err
holds 'check - does not stop' grep -q 'the byte at offset 1 makes it no witness' err
python3 -c "import hashlib,sys
h=lambda tag,*b: hashlib.sha256(bytes([len(tag)])+tag+b''.join(b)).digest()
w,d=b'\x60\x40'+bytes(64),h(b'ic-hashtree-leaf',bytes(64))
for i in range(14): w,d=b'\x20\0'+w+w,h(b'ic-hashtree-fork',d,d)
open('long.w','wb').write(w); open('long.digest','w').write(d.hex())"
in=long.w try 0 '1114110 bytes: too long for its registers to be counted' check - "$(cat long.digest)"
in=long.w try 1 'does not match' check - $D
in=long.w try 2 'too long for --json' check - "$(cat long.digest)" --json
cat long.w long.w >two.w && in=two.w try 1 'the byte at offset 1114110 makes it no witness' check - $D
try 2 'is too long' check long.w $D
# ---- build logs
fresh && cp u.store kept.store && cp "$top/examples/uart.log" .
try 0 'modify 00c.BAUD 000c180300000d05' log uart.log
holds 'log prints a line a record' test "$(wc -l <out)" = 5
try 0 '5 records: 1 found no room, 1 no register' replay u.store uart.log
holds 'replay changed nothing' bash -c '! cmp -s u.store kept.store'
try 0 '12 registers, root' replay u.store uart.log
try 1 'refused (7)' get u.store 02c.TIMEOUT
try 0 '0010080300000000' get u.store 010.MODEM
cp u.store kept.store
head -c 87 uart.log >cut.log
try 1 'record 5, at byte 67, is malformed: it is cut short' replay u.store cut.log
holds 'a malformed log changed the store' cmp -s u.store kept.store
holds 'a refused replay left its lock' test ! -e u.store.new
for case in '\301\002a\007:its operation is 3' '\061\000:its name is longer' '\001\202a:its value is longer' '\201\002a\007:a delete with a value' '\001\003a\007:its last bit is set' '\001:cut short'; do
  printf "\201\000a${case%%:*}" >bad.log
  try 1 "record 2, at byte 3, is malformed" replay u.store bad.log
  try 1 "${case#*:}" log bad.log
  holds "a malformed log changed the store: ${case#*:}" cmp -s u.store kept.store
done
: >none.log
try 0 '0 records: 0 found no room, 0 no register' replay u.store none.log
try 0 '' log none.log
try 1 'refused (1)' replay uart.map cut.log
try 2 '' replay u.store missing.log
try 2 'too few words: replay STORE LOG' replay u.store
ln -sf u.store link.store && "$tool" replay link.store uart.log >/dev/null
holds 'replay wrote over a link' test -L link.store
cp kept.store u.store && chmod 400 u.store
try 2 'may not be written' replay u.store uart.log
holds 'a file that may not be written was' cmp -s u.store kept.store
chmod 600 u.store
holds 'a log from standard input' bash -c "'$tool' replay u.store - <uart.log | grep -q '5 records'"
# ---- cbor and uncbor
try 0 $D cbor ask.w ask.cbor
try 0 $D uncbor ask.cbor back.w
holds 'there and back is another witness' cmp -s ask.w back.w
holds 'an example has two forms' bash -c "'$tool' cbor '$top/examples/irq.witness' - 2>/dev/null | cmp -s - '$top/examples/irq.cbor'"
try 0 $D cbor ask.w ask.cbor
try 2 'is no CBOR' cbor ask.w hole.w
try 2 'is no witness' uncbor ask.cbor ask.cbor
try 1 '(12)' uncbor ask.w none.w
try 1 'use uncbor' check ask.cbor $D
printf '\xd9\xd9\xf7' | cat - ask.cbor >tagged.cbor
try 1 '(12)' uncbor tagged.cbor none.w
holds 'a refused uncbor wrote' test ! -e none.w
try 2 'too few words' cbor ask.w

# ---- diff
fresh
"$tool" build uart.map v.store --capacity 20 >/dev/null
try 0 'no difference' diff u.store v.store
try 0 'no difference' diff u.store u.store
"$tool" set v.store 008.CTRL - >/dev/null && "$tool" unset v.store 00c.BAUD >/dev/null && "$tool" add v.store hex: 41 >/dev/null
try 1 '3 differences' diff u.store v.store
printf '+ hex: 41\n~ 008.CTRL 0008200300000000 -\n- 00c.BAUD 000c180300000d04\n3 differences\n' >wanted
holds 'the lines of a difference' cmp -s out wanted
try 1 '- hex: 41' diff v.store u.store
holds '- is not standard input of diff' bash -c "'$tool' diff - u.store <u.store | grep -qx 'no difference'"
printf x >>v.store && cp v.store kept.store
try 2 'v.store: refused (1)' diff u.store v.store
try 2 'v.store: refused (1)' diff v.store u.store
holds 'diff changed a store' cmp -s v.store kept.store
try 2 'is a witness and no store' diff u.store both.w
try 2 'none.store' diff u.store none.store
try 2 'too few words: diff OLD NEW' diff u.store

# ---- the page: no script in it, and where Chromium is there it draws it
"$tool" html ctrl.w $D >page.html
holds 'a script in the page' bash -c '! grep -qi "<script" page.html'
if command -v chromium >/dev/null; then
  chromium --headless --no-sandbox --disable-gpu --screenshot="$room/page.png" "file://$room/page.html" >/dev/null 2>&1
  holds 'Chromium draws no page' test -s page.png
fi

# ---- SVD
holds 'svd-to-map.py fails' python3 "$top/scripts/svd-to-map.py" "$top/examples/sample.svd" maps >/dev/null
holds 'svd-to-map.py --check finds fault' python3 "$top/scripts/svd-to-map.py" --check maps/*.map "$top/examples/uart.map" >/dev/null
try 0 '12 registers' build maps/TIMER0.map t.store
try 0 '12 registers' build maps/TIMER1.map t1.store
holds 'a derived peripheral is another' cmp -s t.store t1.store
holds 'a register of a cluster array' test "$("$tool" get t.store 124.CH1.SHADOW)" = 0124200100000000
holds 'a field' test "$("$tool" get t.store 000.CTRL/04.MODE)" = 0403030000000001
printf '4.A 0004080300000000\n10.B 0010080300000000\n' >lint.map
holds 'offsets of two widths pass the lint' bash -c "! python3 '$top/scripts/svd-to-map.py' --check lint.map 2>/dev/null >&2"
printf '004.A 0004200300000000\n006.B 0006080300000000\n' >lint.map
holds 'an overlap passes the lint' bash -c "! python3 '$top/scripts/svd-to-map.py' --check lint.map 2>/dev/null >&2"

# ---- 15. through a link, from anywhere
ln -s "$tool" linked && holds 'the tool does not run through a link' ./linked root u.store >/dev/null

echo "test-regmap: $passed passed, $failed failed"
[ "$failed" = 0 ]
