# Part of `trouble`, which reads it: what the program says on standard error, and receivers that end by themselves.
# shellcheck shell=bash disable=SC2154,SC2164

# says_too NAME STATUS LINE WORDS..: the send ends so; this line is on standard output, and on standard error after `fcast: `
says_too() {
  "$program" send "${@:4}" >out 2>err
  compare "$1" $? "$2" "$3"
  [ "$(cat out)" = "$3" ] || says "$1" "standard output has: $(head -c 300 out)"
}

fresh; echo x >a; printf 'instance\t1\nfile\ta\ta\n' >catalog; printf 'file\ta\ta\n' >bad; printf 'instance\t1\nfile\tgone\ta\n' >lacks
says_too "send of bad words" 1 "usage: replay, recv, send, dump, drill or listen" --catalog
says_too "send of a bad catalog" 8 "catalog refused: line 1 cause 4" --catalog bad
says_too "send of a bad plan" 8 "plan refused: cause 4 at 0" --catalog catalog --block 9 --maxn 8
says_too "send of no catalog" 10 "no such file: none" --catalog none
says_too "send of a missing file" 10 "no such file: gone" --catalog lacks
truncate -s 16777217 gone; says_too "send of a large file" 10 "file too large: gone" --catalog lacks
rm gone; mkdir gone; "$program" send --catalog lacks >out 2>err
compare "send of a folder" $? 12 "files: gone: "; [ ! -s out ] || says "send of a folder" "it wrote: $(head -c 300 out)"
"$program" send --catalog catalog >out 2>err; compare "send" $? 0; ! grep -q '^fcast' err || says "send" "$(cat err)"
"$program" replay --bad 1 >out 2>err; compare "replay of bad words" $? 1; ! grep -q '^fcast' err || says "replay of bad words" "$(cat err)"

for name in FCAST_RATE FCAST_IDLE; do
  for value in '' x -1 +1 1.5 ' 1' 18446744073709551616; do
    fresh; env "$name=$value" "$program" replay <"$log" >out 2>err; compare "$name='$value'" $? 1 "$name is no number"
    absent "$name='$value'" installed; [ ! -s out ] || says "$name='$value'" "it wrote: $(head -c 300 out)"
  done
done
for value in 0 86401 4294967297; do fresh; FCAST_IDLE=$value "$program" drill --start 1 >out 2>err; compare "FCAST_IDLE=$value" $? 1 "FCAST_IDLE is no number of seconds from 1 to 86400"; done
for value in 1 86400 007; do fresh; FCAST_IDLE=$value "$program" replay <"$log" >out 2>err; compare "FCAST_IDLE=$value" $? 0; whole "FCAST_IDLE=$value"; done

# bound: waits until a receiver has the port 4000
bound() {
  local i
  for ((i = 0; i < 300; i++)); do
    if grep -q ':0FA0 00000000:0000' /proc/net/udp; then return; fi
    sleep 0.1
  done
}

# has FILE LINE: waits until the file has this line, for at most 10 seconds
has() {
  local i
  for ((i = 0; i < 100; i++)); do
    if grep -q "^$2" "$1"; then return; fi
    sleep 0.1
  done
  return 1
}

# Receivers that would wait for more datagrams end a second after the last, and tell each event before that.
for words in recv listen "listen --readers 16"; do
  name="$words that ends by itself"
  fresh; echo x >a; echo y >b; printf 'instance\t1\nfile\ta\ta\nfile\tb\tb\n' >catalog
  # shellcheck disable=SC2086
  FCAST_IDLE=1 timeout 60 "$program" $words --addr 127.0.0.1 --port 4000 --count 4294967295 >out 2>err &
  receiver=$!
  bound; sleep 1.5
  kill -0 $receiver 2>/dev/null || says "$name" "it ended before a datagram came"
  "$program" send --catalog catalog --addr 127.0.0.1 --port 4000 >sent 2>&1; compare "send to a $name" $? 0
  wait $receiver; compare "$name" $? 0
  [ "$(head -n 3 out)" = "$(printf 'instance 1\ndescriptor 3\nfiles 2')" ] || says "$name" "$(head -c 300 out)"
  [ "$(cat installed/1)" = x ] && [ "$(ls -A installed)" = "$(printf '1\n2\nmanifest')" ] || says "$name" "installed holds $(ls -A installed)"
done
for words in recv listen; do
  name="events of a $words"
  fresh; echo x >a; printf 'instance\t1\nfile\ta\ta\n' >catalog
  "$program" $words --addr 127.0.0.1 --port 4000 --count 4294967295 >out 2>err &
  receiver=$!
  bound
  "$program" send --catalog catalog --addr 127.0.0.1 --port 4000 >sent 2>&1
  if has err 'installed 1'; then echo "ok     $name: at once"; else says "$name" "they don't come"; fi
  kill $receiver; wait $receiver 2>/dev/null; absent "$name" installed
done

# Where the standard input and outputs are closed, a socket doesn't take their place.
fresh; echo x >a; printf 'instance\t1\nfile\ta\ta\n' >catalog
FCAST_IDLE=1 timeout 60 "$program" recv --addr 127.0.0.1 --port 4000 --count 2 <&- >&- 2>err & receiver=$!
bound; "$program" send --catalog catalog --addr 127.0.0.1 --port 4000 >sent 2>&1
wait $receiver; compare "recv with standard output closed" $? 5 "standard output: Bad file descriptor"
"$program" send --catalog catalog --addr 127.0.0.1 --port 4000 <&- >&- 2>&-; compare "send with all closed" $? 0
