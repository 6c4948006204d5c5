# Part of `trouble`, which reads it: the scripts of tools, on names, manifests and logs of all kinds.
# shellcheck shell=bash disable=SC2154,SC2164

# try NAME WANTED COMMAND..: runs the command, which has to end with this status; what it says is left in out and err
try() {
  local name=$1 wanted=$2
  shift 2
  "$@" >out 2>err
  compare "$name" $? "$wanted"
}

# holds NAME FILE TEXT: the file has this text
holds() { [ "$(cat "$2")" = "$3" ] || says "$1" "$2 has: $(head -c 300 "$2")"; }

# begins NAME FILE TEXT: the file begins with this text
begins() { [ "$(head -c ${#3} "$2")" = "$3" ] || says "$1" "$2 begins: $(head -c 300 "$2")"; }

# refused NAME COMMAND..: the command ends with 2, writes nothing to standard output, and says something on standard error
refused() {
  try "$1" 2 "${@:2}"
  [ ! -s out ] || says "$1" "it wrote: $(head -c 300 out)"
  [ -s err ] || says "$1" "it says nothing"
}

# ---- fcast-catalog: names that no catalog can have, as `printf %b` reads them, and names that any can

while IFS= read -r name; do
  fresh; mkdir site; echo x >site/fine; file=$(printf '%b.' "$name"); echo x >"site/${file%.}"
  refused "catalog of the name $name" fcast-catalog site
  begins "catalog of the name $name" err "fcast-catalog: the name "
done <<'NAMES'
a\tb
a\nfile
\n
\0001
\0177
a\r
\0377
\0303
a\0200
\0300\0200
\0340\0200\0200
\0355\0240\0200
\0360\0200\0200\0200
\0364\0220\0200\0200
\0040a
a\0040
NAMES
fresh; mkdir "$(printf 'site\n')" ' site' "$(printf 'si\tte')"; echo x >' site/a'; echo x >"$(printf 'si\tte')/a"
refused "catalog of a folder that begins with a space" fcast-catalog ' site'
refused "catalog of a folder with a tab" fcast-catalog "$(printf 'si\tte')"

fresh; mkdir -p -- '-site/in side/-' '-site/empty'
while IFS= read -r name; do echo "$name" >"./-site/in side/$name"; done <<'NAMES'
-x
#x
a=b
$(x) `x` ${x}
a\tb
*
?[x]
"x" 'x'
%s
&;|<>
..x
NAMES
for file in 'é' $'\u07ff' $'\u0800' $'\ud7ff' $'\ue000' $'\uffff' $'\U10000' $'\U10ffff' $'\u85'; do echo x >"./-site/in side/-/$file"; done
ln -s nowhere ./-site/link; mkfifo ./-site/fifo
try "catalog of names that look odd" 0 fcast-catalog -site
[ "$(sed 1d out)" = "$(sed 1d out | LC_ALL=C sort)" ] || says "catalog of names that look odd" "it isn't sorted"
[ "$(sort err)" = "$(printf 'fcast-catalog: passed over, no plain file: -site/%s\n' fifo link)" ] || says "catalog of names that look odd" "$(cat err)"
rm ./-site/link ./-site/fifo; rmdir ./-site/empty; mv out catalog
"$program" send --catalog catalog --symbol 100 >sent 2>/dev/null; compare "send of names that look odd" $? 0
"$program" replay <sent >out 2>err; compare "replay of names that look odd" $? 0
mkdir -- -placed; try "place of names that look odd" 0 fcast-place -placed
diff -r ./-site ./-placed >out 2>&1 || says "place of names that look odd" "$(head -c 300 out)"
[ "$(fcast-catalog "$PWD/-site" | sed "s|$PWD/||")" = "$(cat catalog)" ] || says "catalog by a whole path" "it differs"
[ "$(cd ./-site && fcast-catalog . | cut -f 3)" = "$(cut -f 3 catalog)" ] || says "catalog of the current folder" "it differs"

fresh; mkdir site; : >site/a; truncate -s 16777216 site/b
try "catalog of a file of 16 MiB" 0 fcast-catalog site
holds "catalog of a file of 16 MiB" out "$(printf 'instance\t1\nfile\tsite/a\ta\nfile\tsite/b\tb')"
truncate -s 16777217 site/b; refused "catalog of a larger file" fcast-catalog site
holds "catalog of a larger file" err "fcast-catalog: larger than 16777216 bytes: site/b"
fresh; mkdir site; for i in $(seq 16); do truncate -s 16777216 "site/$i"; done
try "catalog of 256 MiB" 0 fcast-catalog site
echo >site/17; refused "catalog of more than 256 MiB" fcast-catalog site
fresh; mkdir site; (cd site && seq 4096 | xargs touch)
try "catalog of 4,096 files" 0 fcast-catalog site 4294967295; begins "catalog of 4,096 files" out "$(printf 'instance\t4294967295')"
[ "$(wc -l <out)" = 4097 ] || says "catalog of 4,096 files" "not 4097 lines"
touch site/4097; refused "catalog of 4,097 files" fcast-catalog site
fresh; mkdir site; try "catalog of no file" 0 fcast-catalog site 0; holds "catalog of no file" out "$(printf 'instance\t0')"
for number in '' x -1 +1 1.5 '1 ' 4294967296 99999999999999999999; do try "catalog of the number '$number'" 1 fcast-catalog site "$number"; done
try "catalog of nothing" 1 fcast-catalog; try "catalog of no name" 1 fcast-catalog ''; try "catalog of too much" 1 fcast-catalog site 1 2
refused "catalog of a folder that isn't there" fcast-catalog nowhere; echo x >file; refused "catalog of a file" fcast-catalog file

# ---- fcast-place

# instance LOCATION..: an instance is installed with files of six bytes at these locations; and there is a folder site
instance() {
  local at number=0
  fresh; mkdir site installed
  printf 'instance 1\ndescriptor 99\nfiles %s\n' $# >installed/manifest
  for at; do
    number=$((number + 1))
    printf 'body %s' $((number % 10)) >installed/$number
    printf 'file %s 6\nlocation %s\n' $number "$at" >>installed/manifest
  done
}

# unplaced NAME: it is refused, and nothing is in the folder site
unplaced() {
  refused "$1" fcast-place site
  [ -z "$(ls -A site)" ] || says "$1" "site holds: $(ls -A site)"
}

while IFS=' ' read -r -a places; do
  instance ok "${places[@]}"; unplaced "place of ${places[*]}"
done <<'PLACES'
/x
../x
x/../y
..
x/..
.
./x
x/.
x//y
x/
a/b/c a a/b
x x
x x/y
x/y x
x x-y x/y
.fcast-place.1
x/.fcast-place.
PLACES
instance ''; unplaced "place of no location"
instance "$(printf '%4001s' x | tr ' ' x)"; unplaced "place of a location of 4,001 bytes"
instance ..x x.. x.y x-y x/y/z $'tab\tx' 'x '; try "place of locations that look odd" 0 fcast-place site
holds "place of locations that look odd" site/x/y/z "body 5"; holds "place of locations that look odd" $'site/tab\tx' "body 6"
[ "$(find site -name '.f*')" = "" ] || says "place of locations that look odd" "something stays"

instance a/b; ln -s ../outside site/a; refused "place through a link" fcast-place site; kept "place through a link"
instance a/b; ln -s nowhere site/a; refused "place through a dangling link" fcast-place site
instance ok a/b; echo old >site/a; refused "place through a file" fcast-place site; holds "place through a file" site/a old
instance manifest; rmdir site; ln -s outside site; try "place in a folder by a link" 0 fcast-place site; holds "place in a folder by a link" site/manifest "body 1"
instance ok a; ln -s ../outside/manifest site/a; refused "place at a link" fcast-place site; kept "place at a link"
instance ok a; mkdir site/a; refused "place at a folder" fcast-place site; absent "place at a folder" site/ok
instance ok a; mkfifo site/a; refused "place at a pipe" fcast-place site; absent "place at a pipe" site/ok
instance a/b; mkdir site/a; echo older >site/a/b; echo mine >site/a/c; try "place at a file" 0 fcast-place site
holds "place at a file" site/a/b "body 1"; holds "place at a file" site/a/c mine
instance a; refused "place in installed" fcast-place installed; mkdir installed/x; refused "place below installed" fcast-place ./installed/x/
instance ok installed/b; refused "place at installed by a location" fcast-place .; absent "place at installed by a location" ok installed/b
instance ok installed; refused "place at the folder installed" fcast-place .; absent "place at the folder installed" ok
# A run empties the folder in which it writes the next instance, as it does the one that is installed.
instance ok installed.part/b; refused "place at installed.part by a location" fcast-place .; absent "place at installed.part by a location" ok installed.part
instance ok installed.part; refused "place at installed.part" fcast-place .; absent "place at installed.part" ok installed.part
instance a; mkdir installed.part; refused "place in installed.part" fcast-place installed.part; absent "place in installed.part" installed.part/a
instance ok installed.part.x/b installed.parts; try "place beside installed.part" 0 fcast-place .; holds "place beside installed.part" installed.parts "body 3"
instance installed/b; try "place in another installed" 0 fcast-place site
instance a; refused "place in no folder" fcast-place nowhere; refused "place in a file" fcast-place installed/1; try "place nowhere" 1 fcast-place
try "place of too much" 1 fcast-place site site; try "place of no name" 1 fcast-place ''
instance a; rm installed/1; unplaced "place of no file"
instance a; rm installed/1; ln -s ../outside/manifest installed/1; unplaced "place of a link"
instance a; echo more >>installed/1; unplaced "place of a longer file"
instance a; rm installed/manifest; unplaced "place of no manifest"
instance a; mv installed/manifest m; ln -s ../m installed/manifest; unplaced "place of a linked manifest"
instance a; mv installed other; ln -s other installed; unplaced "place of a linked folder"
fresh; mkdir site; unplaced "place of nothing"

# What a manifest is: edits of one, by sed, that are none.
while IFS= read -r edit; do
  instance a b c; sed "$edit" installed/manifest >m; mv m installed/manifest
  unplaced "place of a manifest after $edit"
done <<'EDITS'
s/^instance 1/instance 01/
s/^instance 1/instance/
s/^instance 1/instance 1 /
s/^instance 1/instance  1/
s/^instance 1/instance x/
1d
2d
3d
4d
$d
s/^files 3/files 4/
s/^files 3/files 2/
s/^file 2 6/file 2/
s/^file 2 6/file 2 6 6/
s/^file 2 6/file 2 -6/
s/^file 2 6/file 2\t6/
s/^file 2/file 1/
s/^file 2/file ..\/2/
s/^location b/location/
s/^location b/Location b/
s/^location b/location b\ntype x\ntype y/
s/^location b/type x\nlocation b/
s/^location b/location b\r/
s/^location b/location b\x00/
s/^location b/location b\x1b/
1i x
$a x
$a\\
EDITS
instance a b; printf 'type \nfile 3 0\nlocation c\ntype text/html' >>installed/manifest; sed -i 's/^files 2/files 3/' installed/manifest; : >installed/3
unplaced "place of a manifest without a last line feed"
echo >>installed/manifest; try "place with types" 0 fcast-place site
holds "place with types" out "$(printf 'placed site/%s\n' a b c)"
fresh; mkdir installed site; printf 'instance 1\ndescriptor 1\nfiles 0\n' >installed/manifest; try "place of an empty instance" 0 fcast-place site

if [ "$(id -u)" != 0 ] || command -v setpriv >/dev/null; then
  instance a b; touch out err; chmod 666 out err; chmod 755 . installed; chmod 555 site
  run_plain fcast-place site >out 2>err; compare "place without rights" $? 3; [ -z "$(ls -A site)" ] || says "place without rights" "something stays"
fi
instance a b
if [ "$(id -u)" = 0 ] && mount -t tmpfs -o size=16k none site 2>/dev/null; then
  head -c 9000 /dev/zero >installed/2; sed -i 's/^file 2 6/file 2 9000/' installed/manifest; echo old >site/a
  try "place on a full disk" 3 fcast-place site; holds "place on a full disk" site/a old
  [ "$(ls -A site)" = a ] || says "place on a full disk" "site holds: $(ls -A site)"
  umount site
fi

# ---- fcast-missing

# lose CONDITION: of the log `sent`, whose items are equally long, those stay in `lost` for which awk's CONDITION on i, from 0, is false
lose() {
  local size=$((34 + symbol))
  head -c 8 sent >lost
  tail -c +9 sent | split -b $size -a 4 -d - item
  for item in item*; do echo "$item"; done | awk '{i = NR - 1} !('"$1"')' | xargs -r cat >>lost
  rm item*
}

# lacks NAME STATUS TEXT [TSI]: what fcast-missing says of `lost`
lacks() {
  fcast-missing ${4:+"$4"} <lost >out 2>err
  compare "$1" $? "$2"
  holds "$1" out "$3"
  absent "$1" installed
}

fresh; mkdir one; echo a >one/a; head -c 300 /dev/zero >one/b; echo c >one/c; fcast-catalog one >catalog
cp -r one two; echo new >two/c; fcast-catalog two 2 >>catalog; symbol=100
"$program" send --catalog catalog --symbol $symbol --block 2 --maxn 4 --tsi 3 >sent 2>/dev/null
# Each instance is sent as 2 symbols of its descriptor, 2 of a, 8 of b (two blocks of two, in turns) and 2 of c.
lose 0; lacks "missing: nothing" 0 "instance 2, descriptor 6: whole" 3
lacks "missing: another session" 2 "no descriptor came whole"
lose 'i == 12 || i == 13'; lacks "missing: of the older" 0 "instance 2, descriptor 6: whole" 3
lose 'i == 26 || i == 27'; lacks "missing: a file" 2 "instance 2, descriptor 6: 1 of 3 files lack symbols, 1 or more in all
  file 5: no symbol came
instance 1, descriptor 4: whole" 3
lose 'i > 3 && i != 5 && i != 14'; lacks "missing: two as near" 2 "instance 2, descriptor 6: 2 of 3 files lack symbols, 4 or more in all
  file 2, block 0: lacks 2 of 2 symbols
  file 2, block 1: lacks 1 of 2 symbols
  file 5: no symbol came
instance 1, descriptor 4: 2 of 3 files lack symbols, 4 or more in all" 3
lose 'i > 3 && i != 7 && i != 13 && i != 15'; lacks "missing: the older is nearer" 2 "instance 2, descriptor 6: 2 of 3 files lack symbols, 4 or more in all
instance 1, descriptor 4: 1 of 3 files lack symbols, 3 in all
  file 2, block 0: lacks 2 of 2 symbols
  file 2, block 1: lacks 1 of 2 symbols" 3
lose 'i == 0 || i == 1 || i >= 14 || i == 4 || i == 6 || i == 8'; lacks "missing: the descriptor" 2 "no descriptor came whole
object 2, block 0: lacks 1 of 2 symbols" 3
cp sent lost; printf '\0' >>lost; lacks "missing: a torn log" 0 "instance 2, descriptor 6: whole" 3
head -c 300 sent >lost; lacks "missing: most" 2 "instance 1, descriptor 4: 3 of 3 files lack symbols, 3 or more in all
  file 1: no symbol came
  file 2: no symbol came
  file 3: no symbol came" 3
printf 'FCASTLG1' >lost; lacks "missing: an empty log" 2 "no descriptor came whole"
printf 'FCASTLG' >lost; lacks "missing: no log" 1 ""
cp sent lost; for word in x '' 4294967296; do fcast-missing "$word" <lost >out 2>err; compare "missing: of the session '$word'" $? 1; done
(PATH=/usr/bin:/bin; "$room/bin/fcast-missing" <lost >out 2>err); compare "missing: no program" $? 1
