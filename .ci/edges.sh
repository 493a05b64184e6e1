#!/usr/bin/env bash
# edges.sh VAX: what a built program does at its edges, where no proof says it: with standard streams closed, with two runs in one folder, with states that
# can't be saved, with files of a limited size, with interrupted writes, and by each exit status. It works in a folder of its own, tells each case that isn't as it must be, and ends with 'N passed, M failed'.
set -u
if [ $# -ne 1 ] || [ ! -x "$1" ]; then
  echo 'use: edges.sh VAX' >&2
  exit 2
fi
vax=$(readlink -f "$1")
examples=$(cd "$(dirname "$0")/../examples" && pwd) || exit 2
work=$(mktemp -d) || exit 2
trap 'rm -rf "$work"' EXIT
cd "$work" || exit 2
cp "$examples"/*.mar .

passed=0
failed=0

# expect WHAT WANTED FOUND
expect() {
  if [ "$2" = "$3" ]; then
    passed=$((passed + 1))
  else
    failed=$((failed + 1))
    printf 'failed: %s\n  wanted: %s\n  found:  %s\n' "$1" "$2" "$3"
  fi
}

# answer WORDS..: the status of a call, and the first line on standard error
answer() {
  "$vax" "$@" </dev/null >out 2>err
  echo "$? $(head -n 1 err)"
}

# same FILE FILE: whether both are there and hold the same
same() {
  if cmp -s "$1" "$2"; then echo same; else echo "$1 differs from $2"; fi
}

# ---- A run by itself, which the others are compared with ----

paged=(run large.mar number.mar --frames 64)
expect 'a paged run' '0 ENDING HALT' "$(answer "${paged[@]}" --record on)"
expect 'the sum of a paged run' '327692800 25473' "$(tr '\n' ' ' <out | sed 's/ *$//')"
for file in out err vax.pag vax.rec; do mv "$file" "lone.$file"; done

# ---- Eight programs on one pool ----

for j in 1 2 3 4 5 6 7 8; do
  printf '.PSECT DATA\nBUF: .BLKB 51200\n.PSECT CODE,NOWRT\n.ENTRY START,^M<>\nMOVL #3,R9\n20$: MOVAL BUF,R7\nMOVL #100,R6\n' >"eight$j.mar"
  printf '10$: ADDL2 #%d,(R7)\nXORL2 (R7),R8\nROTL #%d,R8,R8\nADDL2 #512,R7\nSOBGTR R6,10$\n' "$((j * 7919))" "$j" >>"eight$j.mar"
  printf 'SOBGTR R9,20$\nADDL3 #%d,#48,R0\nCHMK #1\nRET\n.END START\n' "$j" >>"eight$j.mar"
done
: >wanted
for j in 1 2 3 4 5 6 7 8; do
  echo "JOB $j" >>wanted
  "$vax" run "eight$j.mar" 2>>wanted >>letters
done
"$vax" jobs eight?.mar --pool 512 >out 2>err
expect 'eight programs' '0 same' "$? $(same wanted err)"
expect 'what each of them sends' "$(fold -w 1 letters | sort)" "$(fold -w 1 out | sort)"
for j in 8 7 6 5 4 3 2 1; do echo "$j $((j * j))"; done >order
"$vax" jobs eight?.mar --pool 512 --order order >out 2>err
expect 'eight programs in an order' '0 same' "$? $(same wanted err)"
for j in 1 2 3 4 5 6 7 8; do echo "$j 1000000000"; done >order
"$vax" jobs eight?.mar --pool 512 --order order >out 2>err
expect 'one of eight programs behind another' '0 same same' "$? $(same wanted err) $(same letters out)"
rm -f order vax.pag

# ---- Exit statuses ----

cp literals.mar program.mar
printf 'START: FROB R1\n.END START\n' >wrong.mar
printf '.PSECT CODE\nSTART: JSB ELSEWHERE\nHALT\n.END START\n' >unlinked.mar
printf 'VAXI' >short.img
head -c 4194305 /dev/zero >large.bin
printf 'at 1 80000200\nat 1 FFFFFE00\n' >faulty.txt
printf 'EXAMINE R1\nNEXT\nCONTINUE\n' >script.txt
mkdir directory
long=$(printf '%0300d' 0)

expect 'a bare run' '0 ENDING HALT' "$(answer bare program.mar)"
expect 'a run' '0 ENDING HALT' "$(answer run hello.mar)"
expect 'a workload' '0 ENDING HALT' "$(answer work)"
expect 'two programs' '0 JOB 1' "$(answer jobs hello.mar hello.mar)"
expect 'an image' '0 ' "$(answer build program.mar --base bare)"
mv out program.img
expect 'a run of the image' '0 ENDING HALT' "$(answer bare program.img)"
expect 'a listing' '0 ' "$(answer list program.mar --base bare)"
expect 'a console' '0 R1 00000000' "$(answer console program.mar --base bare --script script.txt)"
expect 'help' '0 ' "$(answer --help)"
expect 'a run up to its steps' '0 ENDING STEPS' "$(answer bare program.mar --steps 1)"
expect 'a strict run' '0 ENDING HALT' "$(answer bare program.mar --strict on)"
expect 'a strict run up to its steps' '15 ENDING STEPS' "$(answer bare program.mar --strict on --steps 1)"
printf '.PSECT CODE,NOWRT\n.ENTRY START,^M<>\nMOVL #2,R0\nRET\n.END START\n' >unsuccessful.mar
expect 'a strict run without success' '16 ENDING HALT' "$(answer run unsuccessful.mar --strict on)"
expect 'no words' '1 vax: usage' "$(answer)"
expect 'no such command' '1 vax: usage' "$(answer fly program.mar)"
expect 'no such option' '1 vax: usage' "$(answer bare program.mar --base bare)"
expect 'no file' '2 vax: missing NONE' "$(answer bare NONE)"
expect 'no schedule' '2 vax: missing NONE' "$(answer bare program.mar --schedule NONE)"
expect 'a file too large' '3 vax: large large.bin' "$(answer bare large.bin)"
expect 'a source' '4 vax: source 1 line 1 fault 2' "$(answer bare wrong.mar)"
expect "a system's source" '4 vax: source 0 line 1 fault 2' "$(answer run hello.mar --system wrong.mar)"
expect 'a link' '5 vax: link fault 1 ELSEWHERE' "$(answer bare unlinked.mar)"
expect 'a schedule' '6 vax: schedule line 2 fault 2' "$(answer bare program.mar --schedule faulty.txt)"
expect 'an image' '7 vax: image place 4 fault 8' "$(answer bare short.img)"
expect 'turns' '8 ENDING TURNS' "$(answer bare program.mar --turns 1)"
expect 'turns of a console' '8 R1 00000000' "$(answer console program.mar --base bare --script script.txt --turns 1)"
expect 'a directory' '10 vax: read' "$(answer bare directory)"
expect 'a name behind a file' '10 vax: read' "$(answer bare program.mar/x)"
expect 'a name too long' '10 vax: read' "$(answer bare "$long")"
expect 'a word that is no text' '10 ' "$(answer bare $'\xff')"
expect 'an order' '13 vax: order line 1 fault 2' "$(answer jobs hello.mar --order <(echo '2 1'))"
expect 'turns of several programs' '8 JOB 1' "$(answer jobs hello.mar hello.mar --turns 100)"
expect 'memory' '12 vax: memory' "$(ulimit -v 16000; answer bare program.mar --frames 32768)"

mkdir vax.pag vax.rec
expect 'a page file that is a directory' '9 ENDING PAGEFAULT' "$(answer "${paged[@]}")"
expect 'the same, where no page needs it' '0 ENDING HALT' "$(answer bare program.mar)"
expect 'a record that is a directory' '11 ' "$(answer bare program.mar --record on --schedule <(echo 'at 3 80000200'))"
rmdir vax.pag vax.rec

"$vax" run hello.mar >/dev/full 2>err
expect 'output to a full disk' 11 $?
"$vax" run hello.mar 2>/dev/full >out
expect 'a report to a full disk' 11 $?
"$vax" bare NONE 2>/dev/full
expect 'a refusal to a full disk' 11 $?
"$vax" build program.mar --base bare >/dev/full 2>err
expect 'an image to a full disk' 11 $?
exec 3> >(:)
wait $!
"$vax" run hello.mar >&3 2>err
expect 'output to a closed pipe' 11 $?
exec 3>&-

# ---- Closed streams ----

# without STREAMS WORDS..: a call without these of its streams 0, 1 and 2
without() (
  streams=$1
  shift
  exec </dev/null >out 2>err
  case $streams in *0*) exec <&- ;; esac
  case $streams in *1*) exec >&- ;; esac
  case $streams in *2*) exec 2>&- ;; esac
  exec "$vax" "$@"
)

# kept STREAMS: what the files of a run hold that isn't theirs, and what isn't in a stream that was open
kept() {
  [ -e vax.pag ] && grep -qaE 'ENDING|327692800' vax.pag && echo 'vax.pag has what was sent'
  [ -e vax.rec ] && grep -qavE '^at [0-9]+ [0-9A-F]{8}$' vax.rec && echo 'vax.rec has what was sent'
  case $1 in *1*) ;; *) same lone.out out ;; esac
  case $1 in *1* | *2*) ;; *) same lone.err err ;; esac
}

for streams in 0 1 2 01 02 12 012; do
  case $streams in
  *1* | *2*) wanted=11 ;;
  *) wanted=0 ;;
  esac
  case $streams in
  0) clean='same same ' ;;
  2 | 02) clean='same ' ;;
  *) clean='' ;;
  esac
  rm -f vax.pag vax.rec
  without "$streams" "${paged[@]}"
  expect "a paged run without $streams" "$wanted $clean" "$? $(kept "$streams" | tr '\n' ' ')"
  without "$streams" "${paged[@]}" --record on
  expect "a recorded run without $streams" "$wanted $clean" "$? $(kept "$streams" | tr '\n' ' ')"
  case $streams in *2*) wanted=11 ;; *) wanted=0 ;; esac
  without "$streams" bare program.mar
  expect "a run that sends nothing, without $streams" $wanted $?
  case $streams in *1*) wanted=11 ;; *) wanted=0 ;; esac
  without "$streams" build program.mar --base bare
  expect "an image without $streams" $wanted $?
  [ $wanted = 11 ] || expect "an image without $streams, its bytes" same "$(same program.img out)"
  without "$streams" --help
  expect "help without $streams" $wanted $?
  case $streams in *2*) wanted=11 ;; *) wanted=2 ;; esac
  without "$streams" bare NONE
  expect "no file, without $streams" $wanted $?
done

# ---- Saved states ----

# limited BLOCKS WORDS..: the status of a call whose files may have so many kilobytes
limited() {
  (
    ulimit -f "$1"
    shift
    exec "$vax" "$@" </dev/null >out 2>err
  )
  echo $?
}

# left_of_state: what is left of a state in this folder
left_of_state() { echo "$(same older.rec vax.rec) $(ls -d vax.rec.new 2>/dev/null)"; }

rm -f vax.pag vax.rec
expect 'a saved state' '0 ENDING STEPS' "$(answer save large.mar number.mar --steps 2000)"
expect 'who may read it' '600 ' "$(stat -c %a vax.rec) $(ls vax.rec.new 2>/dev/null)"
cp vax.rec older.rec
expect 'it goes on' '0 ENDING HALT' "$(answer resume vax.rec)"
mkdir vax.rec.new
expect 'a state that has no new file' '11 ' "$(answer save large.mar number.mar --steps 3000)"
expect 'the older state' 'same vax.rec.new' "$(left_of_state)"
rmdir vax.rec.new
expect 'a state that is too large for a file' 11 "$(limited 1 save large.mar number.mar --steps 3000)"
expect 'the older state still' 'same vax.rec.new' "$(left_of_state)"
expect 'a state over a half one' '0 ENDING STEPS' "$(answer save large.mar number.mar --steps 2000)"
expect 'it is whole' 'same ' "$(left_of_state)"
expect 'a run that ends' '0 ENDING HALT' "$(answer save hello.mar --steps 1000000)"
expect 'its older state' '' "$(ls vax.rec* 2>/dev/null)"
mkdir vax.rec
expect 'a state whose name a directory has' '11 ' "$(answer save large.mar number.mar --steps 2000)"
expect 'an older state that is a directory' '11 ' "$(answer save hello.mar --steps 1000000)"
rmdir vax.rec
rm -f vax.rec.new
printf 'STEP 3\nSAVE\n' >three.txt
printf 'GO\nSAVE\n' >all.txt
"$vax" debug hello.mar <three.txt >out 2>err
expect 'a state saved by a session' '0 600 ' "$? $(stat -c %a vax.rec) $(ls vax.rec.new 2>/dev/null)"
"$vax" debug hello.mar <all.txt >out 2>err
expect 'a session whose program has ended' '0 ' "$? $(ls vax.rec* 2>/dev/null)"

# ---- Files of a limited size, and who may read them ----

rm -f vax.pag vax.rec
umask 0
expect 'a paged run for all to read' '0 ENDING HALT' "$(answer "${paged[@]}" --record on)"
expect 'its files' '600 600' "$(stat -c %a vax.pag vax.rec | tr '\n' ' ' | sed 's/ *$//')"
umask 022
expect 'output to a file that may have no byte' 11 "$(limited 0 run hello.mar)"
expect 'an image to a file that is too small' '11 1024' "$(limited 1 build large.mar number.mar) $(wc -c <out)"
expect 'what may be written of it' same "$("$vax" build large.mar number.mar | head -c 1024 | cmp -s - out && echo same)"
head -c 1024 /dev/zero >appended
(
  ulimit -f 1
  exec "$vax" run hello.mar >>appended 2>/dev/null
)
expect 'output behind what fills a file' '11 1024' "$? $(wc -c <appended)"
expect 'a trace that is too large' '11 1024' "$(limited 1 trace large.mar number.mar --steps 200) $(wc -c <vax.rec)"
expect 'a page file that is too large' 9 "$(limited 1 "${paged[@]}")"
expect 'the same, where no page needs it' 0 "$(limited 1 bare program.mar)"

# ---- Interrupted writes ----

if strace -o trace.txt true 2>/dev/null; then
  # interrupted WORDS..: a call of which every second write is interrupted
  interrupted() {
    strace -o trace.txt -e trace=write,pwrite64 -e inject=write,pwrite64:error=EINTR:when=1+2 "$vax" "$@" </dev/null >out 2>err
    echo "$? $(grep -c EINTR trace.txt | sed 's/^[1-9].*/some/')"
  }

  expect 'interrupted output' '0 some same' "$(interrupted run hello.mar) $("$vax" run hello.mar 2>/dev/null | cmp -s - out && echo same)"
  expect 'an interrupted paged run' '0 some' "$(interrupted "${paged[@]}" --record on)"
  expect 'what it wrote' 'same same same same' "$(same lone.out out) $(same lone.err err) $(same lone.vax.rec vax.rec) $(same lone.vax.pag vax.pag)"
  expect 'an interrupted saving' '0 some same ' "$(interrupted save large.mar number.mar --steps 2000) $(left_of_state)"
else
  echo 'skipped: interrupted writes, since strace is not there or may not be used'
fi

# ---- A run's files are its own ----

# What another program has open, or another name has, stays as it was.
echo other >other
rm -f vax.pag vax.rec
ln other vax.pag
ln -s other vax.rec
expect 'a run over the files of another' '0 ENDING HALT' "$(answer "${paged[@]}" --record on)"
expect 'what the other had' other "$(cat other)"
expect 'the page file made anew' same "$(same lone.vax.pag vax.pag)"
expect 'the record made anew' same "$(same lone.vax.rec vax.rec)"

for pair in {1..40}; do
  "$vax" "${paged[@]}" --record on </dev/null >out.1 2>err.1 &
  first=$!
  "$vax" "${paged[@]}" --record on </dev/null >out.2 2>err.2 &
  second=$!
  wait $first
  found="$?"
  wait $second
  found="$found $?"
  for n in 1 2; do found="$found $(same lone.out out.$n) $(same lone.err err.$n)"; done
  found="$found $(same lone.vax.pag vax.pag) $(same lone.vax.rec vax.rec)"
  expect "pair $pair in one folder" '0 0 same same same same same same' "$found"
done

# ---- Signs and brackets, on a small stack ----

# small WORDS..: the status of a call with a stack of 384 KB, and the first line on standard error
small() {
  (ulimit -s 384 && exec "$vax" "$@" </dev/null >out 2>err)
  echo "$? $(head -n 1 err)"
}

# times TEXT COUNT: the text so many times
times() { printf -- "$1%.0s" $(seq "$2"); }

# source_of TEXT: a program with this expression
source_of() { printf 'START: HALT\n .LONG %s\n .END START\n' "$1" >deep.mar; }

source_of "$(times '<' 1000)"
expect 'brackets that nothing closes' '4 vax: source 1 line 2 fault 4' "$(small build deep.mar)"
source_of "$(times '<' 500)1$(times '>' 500)"
expect 'brackets in one another' '0 ' "$(small build deep.mar)"
source_of "$(times - 1000)1"
expect 'signs before a term' '0 ' "$(small build deep.mar)"
source_of "$(times '^C' 500)1"
expect 'complements of a term' '0 ' "$(small build deep.mar)"
source_of "^M<$(times 'R2,' 330)R3>"
expect 'registers of a mask' '0 ' "$(small build deep.mar)"
rm -f deep.mar

# ---- Files that programs write are read ----

# What `build` writes of four sections is longer than a source may be.
for n in 1 2 3 4; do printf '.PSECT S%d\n.BLKB 1048576\n' "$n"; done >wide.mar
printf '.PSECT CODE,NOWRT\n.ENTRY START,^M<>\nRET\n.END START\n' >>wide.mar
expect 'an image of four wide sections' '0 ' "$(answer build wide.mar)"
mv out wide.img
expect 'its bytes' longer "$([ "$(wc -c <wide.img)" -gt 4194304 ] && echo longer)"
expect 'a run of it' '0 ENDING HALT' "$(answer run wide.img)"
mv err wide.err
expect 'the same as of its source' '0 ENDING HALT same' "$(answer run wide.mar) $(same wide.err err)"
expect 'it is built of itself' '0  same' "$(answer build wide.img) $(same wide.img out)"
cat wide.mar - </dev/null >long.mar
head -c 4194304 /dev/zero | tr '\0' ';' >>long.mar
expect 'a source that is too long' '3 vax: large long.mar' "$(answer run long.mar)"
rm -f wide.img wide.err long.mar

# A record that is longer than a source may be goes for a schedule.
printf '.PSECT DATA\nD: .LONG 0\n.PSECT CODE,NOWRT\n.ENTRY START,^M<>\nMOVL #150000,R6\n10$: INCL D\nSOBGTR R6,10$\nRET\n.END START\n' >long.mar
echo 'each 4 all' >each
expect 'a long run under a schedule' '0 ENDING HALT' "$(answer run long.mar --schedule each --record on)"
mv err long.err
mv vax.rec long.rec
expect 'the bytes of its record' longer "$([ "$(wc -c <long.rec)" -gt 4194304 ] && echo longer)"
expect 'the same run under its record' '0 ENDING HALT same same' "$(answer run long.mar --schedule long.rec --record on) $(same long.err err) $(same long.rec vax.rec)"
expect 'a record for a script' '3 vax: large long.rec' "$(answer console long.mar --script long.rec)"
expect 'a record for an input' '3 vax: large long.rec' "$(answer run long.mar --input long.rec)"
rm -f long.mar long.err long.rec each vax.rec vax.pag

# ---- Many faults are reported in time ----

# Each of these has 20,000 lines or more. A time that grows as the square of them would be minutes.
in_time() { timeout 20 "$vax" check many.mar >out 2>err; echo "$?"; }
{ for n in $(seq 10000); do echo "L$n: NOP"; done; for n in $(seq 200); do echo NOP; done; for n in $(seq 10000); do echo "BRB L$n"; done; } >many.mar
expect 'branches out of range' 4 "$(in_time)"
printf '.REPT 20000\nD=D+1\nD=D+1 NOP\n.ENDR\n' >many.mar
expect 'an assignment with a fault after each' 4 "$(in_time)"
printf 'D=0\n.REPT 20000\nD=D+1\nD=D+1 NOP\n.ENDR\n' >many.mar
expect 'the same of a name that has a value' 4 "$(in_time)"
printf '.REPT 20000\nX=X+1\n.ENDR\n' >many.mar
expect 'a name that is defined by itself' 4 "$(in_time)"
for n in $(seq 20000); do echo "R$n=R$((n % 20000 + 1))+0"; done >many.mar
expect 'a ring of names' 4 "$(in_time)"
rm -f many.mar

echo "$passed passed, $failed failed"
[ "$failed" -eq 0 ]
