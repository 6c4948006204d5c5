# Part of `trouble`, which reads it: runs that are stopped, or find no room, while they exchange what is installed. Before and after them
# the folder `installed` holds the old instance or the new one, whole, and the next run leaves nothing beside it.
# shellcheck shell=bash disable=SC2154,SC2164

# sets NAME COUNT: the instances old and new of so many files each, as NAME/old and NAME/new, and their logs NAME/old.log and NAME/new.log
sets() {
  local which i number=0
  mkdir "$room/$1"
  for which in old new; do
    fresh; mkdir "$which"; number=$((number + 1))
    for ((i = 0; i < $2; i++)); do echo "$which $i" >"$which/$i"; done
    fcast-catalog "$which" $number >catalog
    "$program" send --catalog catalog >"$room/$1/$which.log" 2>/dev/null
    "$program" replay <"$room/$1/$which.log" >/dev/null 2>&1
    mv installed "$room/$1/$which"
  done
}

# is_old, is_new NAME: what is installed is this instance of the sets
is_old() { diff -r installed "$room/$1/old" >difference 2>&1; }
is_new() { diff -r installed "$room/$1/new" >difference 2>&1; }

# recovers NAME SETS: where something is installed it is one of both; and after a run that installs nothing it is, with nothing beside
recovers() {
  if [ -e installed ]; then is_old "$2" || is_new "$2" || says "$1" "$(head -c 300 difference)"; fi
  "$program" replay </dev/null >out 2>err
  [ $? = 3 ] || says "$1" "the next run: $(head -c 300 err)"
  is_old "$2" || is_new "$2" || says "$1" "after the next run: $(head -c 300 difference)"
  absent "$1" installed.part
}

sets few 12
sets many 300

# Signals at random times. What a stop leaves is counted: the old instance, the new one, or neither until the next run.
fresh; cp -r "$room/many/old" installed
began=$(date +%s%N); "$program" replay <"$room/many/new.log" >out 2>err; taken=$((($(date +%s%N) - began) / 1000))
is_new many || says "a run that isn't stopped" "$(head -c 300 difference)"
olds=0 news=0 neither=0
signals=(KILL TERM INT QUIT) stops=(0 0 0 0)
for ((round = 0; round < 200; round++)); do
  fresh; cp -r "$room/many/old" installed
  # What a shell starts in the background ignores INT and QUIT, unless `env` undoes that.
  env --default-signal=INT,QUIT "$program" replay <"$room/many/new.log" >out 2>err &
  microseconds=$((taken * RANDOM / 32768))
  sleep "$(printf '%d.%06d' $((microseconds / 1000000)) $((microseconds % 1000000)))"
  kill -"${signals[round % 4]}" $! 2>/dev/null
  wait $! 2>/dev/null
  [ $? -lt 128 ] || stops[round % 4]=$((stops[round % 4] + 1))
  if [ ! -e installed ]; then neither=$((neither + 1)); elif is_old many; then olds=$((olds + 1)); else news=$((news + 1)); fi
  recovers "a signal" many
done 2>/dev/null
for ((i = 0; i < 4; i++)); do [ "${stops[i]}" -gt 5 ] || says "a signal" "only ${stops[i]} of 50 runs were stopped by ${signals[i]}"; done
echo "ok     signals (${signals[*]}) at 200 times within $((taken / 1000)) ms: $olds old, $news new, $neither neither"

# A stop before each system call that names a file, writes, syncs or closes.
fresh; cp -r "$room/few/old" installed
calls=%file,write,fsync,close
if command -v strace >/dev/null && strace -f -o trace -e "trace=$calls" "$program" replay <"$room/few/new.log" >out 2>err; then
  is_new few || says "a run that is traced" "$(head -c 300 difference)"
  stops=0
  for name in $(sed -n 's/^[0-9]* *\([a-z0-9_]*\)(.*/\1/p' trace | grep -v '^exec' | sort -u); do
    for ((number = 1; number < 1000; number++)); do
      fresh; cp -r "$room/few/old" installed
      strace -f -o /dev/null -e "inject=$name:signal=KILL:when=$number" "$program" replay <"$room/few/new.log" >out 2>err && break
      stops=$((stops + 1))
      recovers "a stop before $name $number" few
    done
  done 2>/dev/null
  echo "ok     stops before each of $stops system calls"
  [ "$stops" -gt 80 ] || says "stops before each system call" "there are too few"
else
  echo "passed over: stops between system calls (no strace)"
fi

# Disks of each size.
fresh; mkdir disk
if [ "$(id -u)" = 0 ] && mount -t tmpfs -o size=4k none disk 2>/dev/null; then
  umount disk; olds=0 news=0
  for ((size = 52; size < 160; size += 4)); do
    mount -t tmpfs -o size=${size}k none disk
    cp -r "$room/few/old" disk/installed
    cd disk
    "$program" replay <"$room/few/new.log" >../out 2>../err
    case $? in
      0) news=$((news + 1)); is_new few || says "disk of $size KiB" "$(head -c 300 difference)" ;;
      6) olds=$((olds + 1)); is_old few || says "disk of $size KiB" "$(head -c 300 difference)" ;;
      *) says "disk of $size KiB" "$(head -c 300 ../err)" ;;
    esac
    absent "disk of $size KiB" installed.part
    cd ..; umount disk
  done
  echo "ok     disks of each size: $olds old, $news new"
  [ "$olds" -gt 5 ] && [ "$news" -gt 5 ] || says "disks of each size" "there are too few"
else
  echo "passed over: disks of each size (no root)"
fi
