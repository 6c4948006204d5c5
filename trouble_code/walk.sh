# Part of `trouble`, which reads it: the session of README.md, word for word. Each line that begins with `$ ` in a block of code is a
# command; they run one after the other in one shell that starts in an empty folder, and what they print has to be what stands there.
# shellcheck shell=bash disable=SC2154,SC2164

fresh; rm -r outside
awk '/^```/ {inside = !inside; session = 0; next}  inside && /^\$ / {session = 1}  session' "$top/README.md" >../readme
# For each command its own line is printed first. `sleep` waits for the receiver as well, where the machine is slow.
{
  cat <<'BEGIN'
sleep() {
  local i
  command sleep "$1"
  for ((i = 0; i < 300; i++)); do
    if grep -q ':0FA0 00000000:0000' /proc/net/udp; then return; fi
    command sleep 0.1
  done
}
BEGIN
  grep '^\$ ' ../readme | while IFS= read -r line; do printf 'printf "%%s\\n" %q\n%s\n' "$line" "${line#\$ }"; done
} >../session
timeout 120 bash ../session >../found 2>../err
compare "the session of README.md" $? 0
diff -u ../readme ../found >../difference || says "the session of README.md" "$(cat ../difference)"
