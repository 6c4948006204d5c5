# Part of `trouble`, which reads it: a send to a group's address, between two network namespaces that a pair of devices joins.
# shellcheck shell=bash disable=SC2154,SC2164

fresh; mkdir one receiver site; echo '<h1>Wind</h1>' >one/index.html; seq 1000 >one/wind.csv; fcast-catalog one >catalog
here=fcast-here-$$
there=fcast-there-$$
if [ "$(id -u)" = 0 ] && command -v ip >/dev/null && ip netns add $here 2>/dev/null; then
  trap 'ip netns del $here; ip netns del $there; rm -rf "$room"' EXIT
  ip netns add $there
  ip link add fcast netns $here type veth peer name fcast netns $there
  ip -n $here addr add 192.0.2.1/24 dev fcast; ip -n $here link set fcast up
  ip -n $there addr add 192.0.2.2/24 dev fcast; ip -n $there link set fcast up
  ip netns exec $here timeout 20 fcast send --catalog catalog --addr 239.1.1.1 --port 4000 >out 2>err
  compare "send to a group without a route" $? 5 "UDP: Network is unreachable"
  ip -n $here route add 239.0.0.0/8 dev fcast
  ip -n $there addr add 239.1.1.1/32 dev fcast autojoin
  (cd receiver && exec ip netns exec $there timeout 60 fcast recv --addr 239.1.1.1 --port 4000 --count 16 >../out 2>../err) &
  receiver=$!
  for ((i = 0; i < 300; i++)); do
    if ip netns exec $there grep -q ':0FA0 00000000:0000' /proc/net/udp; then break; fi
    sleep 0.1
  done
  FCAST_RATE=100000 ip netns exec $here timeout 60 fcast send --catalog catalog --cycles 2 --addr 239.1.1.1 --port 4000 >sent 2>&1
  compare "send to a group" $? 0
  wait $receiver; compare "recv of a group" $? 0
  (cd receiver && fcast-place ../site) >out 2>&1
  diff -r one site >difference || says "recv of a group" "$(cat difference)"
  ip netns del $here; ip netns del $there
  trap 'rm -rf "$room"' EXIT
else
  echo "passed over: a group (no root, or no ip netns)"
fi
