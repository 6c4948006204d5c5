# Part of `trouble`, which reads it: each allocation refused in turn, and each call of the system failing, or giving a byte alone.
# The program is loaded with a library that does this (refuse.c). Whatever is refused, the run ends with a status of the part that
# failed or as ever; what is written is the front of what is written else; and the folder is as before, or without a manifest, or
# holds the whole instance.
# shellcheck shell=bash disable=SC2154,SC2164

if ! command -v gcc >/dev/null || ! gcc -O2 -shared -fPIC -o "$room/refuse.so" "$top/trouble_code/refuse.c" 2>/dev/null; then
  echo "passed over: refused calls (no gcc)"
  return
fi

fresh
mkdir before
echo old >before/3
echo 'instance 7' >before/manifest

# An instance with one file, as six datagrams, and without the first and the fourth.
printf 'instance\t1\nfile\tf\ta\n' >c
printf hi >f
small=(--catalog c --symbol 25 --block 2 --maxn 3)
"$program" send "${small[@]}" >six 2>err
{ head -c 8 six; tail -c +68 six | head -c 118; tail -c +245 six | head -c 118; } >four
# The empty instances 1 and 4, a datagram each.
printf 'instance\t1\ninstance\t4\n' >empty
"$program" send --catalog empty --symbol 28 --block 1 --maxn 1 >two 2>err
# A station: three instances, of whose datagrams each third is lost, and the rest comes in reverse order.
seq 100000 | head -c 4200 >page
seq 200000 300000 | head -c 4200 >changed
seq 300000 400000 | head -c 41000 >picture
seq 400000 500000 | head -c 307200 >firmware
{
  printf 'instance\t1\nfile\tpage\tindex.html\n'
  printf 'instance\t2\nfile\tpage\tindex.html\nfile\tpicture\tsky.jpg\n'
  printf 'instance\t3\nfile\tchanged\tindex.html\nfile\tpicture\tsky.jpg\nfile\tfirmware\tnode.bin\n'
} >stations
mkdir items
"$program" send --catalog stations 2>err | tail -c +9 | split -a 3 -d -b 1058 - items/
items=(items/*)
head -c 8 "$log" >station
for ((i = ${#items[@]} - 1; i >= 0; i--)); do
  if [ $((i % 3)) != 2 ]; then cat "${items[i]}"; fi
done >>station

# run_refused [VARIABLE=VALUE]..: runs the words over the input, with what stood in the folder before
run_refused() {
  if ! cmp -s installed/manifest before/manifest; then
    rm -rf installed
    if [ -d before ]; then cp -r before installed; fi
  fi
  timeout 20 env LD_PRELOAD="$room/refuse.so" "$@" "$program" "${words[@]}" <"$input" >out 2>err
  status=$?
  # What a reader saw depends on when it looked.
  if [ "${words[0]:-}" = listen ]; then sed -i '/^reader /d' out; fi
}

# row NAME INPUT WORD..: a run of these words over this input, as it is where nothing is refused
row() {
  row=$1 input=$2
  shift 2
  words=("$@")
  rm -rf after
  run_refused
  compare "$row" "$status" 0
  mv out whole
  if [ -d installed ]; then cp -r installed after; fi
}

# sound NAME STATUSES: the run ended with 0 or one of the statuses, and lost nothing
sound() {
  case " 0 $2 " in *" $status "*) ;; *) says "$1" "status $status" ;; esac
  if [ "$status" = 0 ]; then
    cmp -s out whole || says "$1" "another output"
    if [ -d after ]; then diff -r installed after >/dev/null || says "$1" "another folder"; fi
    return
  fi
  cmp -s -n "$(stat -c %s out)" out whole || says "$1" "the output is no front of the whole"
  if [ -e installed/manifest ] && ! diff -r installed before >/dev/null 2>&1 && ! diff -r installed after >/dev/null 2>&1; then
    says "$1" "a manifest without its files"
  fi
}

# refuse KIND STATUSES [short]: refuses each call of this kind in turn, which ends with 0 or one of the statuses
refuse() {
  local kind=$1 statuses=$2 how=("REFUSE=$1") calls at
  if [ $# = 3 ]; then kind="$1 $3" how+=(REFUSE_SHORT=1); fi
  rm -f calls
  run_refused "${how[@]}" REFUSE_COUNT=calls
  [ -s calls ] || says "$row: $kind" "the calls weren't counted"
  calls=$(cat calls)
  : >seen
  for ((at = 1; at <= calls; at++)); do
    run_refused "${how[@]}" REFUSE_AT="$at"
    sound "$row: $kind $at of $calls" "$statuses"
    echo "$status" >>seen
  done
  echo "ok     $row: $kind, $calls calls: statuses $(sort -nu seen | tr '\n' ' ')"
}

# refuse_input, refuse_output, refuse_folder: each call on what the words read, on what they write, and on the folder
refuse_input() { refuse read "$1"; refuse read "" short; }
refuse_output() { refuse write "$1"; refuse write "" short; }
refuse_folder() {
  local kind
  for kind in open unlink rename mkdir rmdir fsync; do refuse $kind 6; done
}

row "a file" four replay
refuse memory 9; refuse_input 4; refuse_output "5 6"; refuse_folder

row "a listening" two listen --readers 2
refuse memory 9; refuse_input 4; refuse_output "5 6"; refuse_folder

row "a dump" "$log" dump
refuse memory 9; refuse_input 4; refuse_output 5

row "a send" /dev/null send "${small[@]}"
refuse memory 9; refuse open 12; refuse_input 12; refuse_output 5

row "a send to an address" /dev/null send "${small[@]}" --addr 127.0.0.1 --port 9
refuse sendto 5; refuse sendto 5 short

row "a station's send" /dev/null send --catalog stations
refuse open 12; refuse_input 12; refuse_output 5

row "a station" station replay
refuse memory 9; refuse_input 4; refuse_output "5 6"; refuse_folder

rm -rf before
row "an empty instance, and no folder" "$log" replay
refuse memory 9; refuse_input 4; refuse_output "5 6"; refuse_folder

# A receiver that is called again where it found no memory comes to the same.
again=$top/crates/take_again/out/take_again
if [ -x "$again" ]; then
  program=$again
  row "a file taken again" four
  refuse memory 9
  row "a station taken again" station
  refuse memory 9
  program=$room/bin/fcast
else
  echo "passed over: a receiver that is called again (not built: $again)"
fi
