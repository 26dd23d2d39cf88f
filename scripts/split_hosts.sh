#!/usr/bin/env bash
# Judges the pieces of a history on two hosts by GNU parallel, as docs/USING.md shows it, and loses one of them half way:
#   scripts/split_hosts.sh ABD FOLDER [SECONDS]
# ABD is the program, FOLDER has the pieces. Each piece waits SECONDS (1) on its host before it is judged, so that there is a half way. The
# hosts are network namespaces with a link, an sshd and a home of their own. It prints how long each run takes, and on which host how many
# pieces were judged; a verdict that isn't that of `abd monitor` here, or is missing, ends it with status 1. It needs root, and Debian's
# packages parallel, openssh-server, rsync and iproute2. Nothing of it is left.
set -euo pipefail
abd=$(realpath "$1")
folder=$(realpath "$2")
seconds=${3:-1}
for program in parallel sshd rsync ip; do
  if ! command -v "$program" > /dev/null; then
    echo "split_hosts: there is no $program" >&2
    exit 1
  fi
done
work=$(mktemp -d)
hosts=(one two)

# Ends what was started for a host, and removes its namespace.
lose() { # lose HOST
  local pid
  for pid in $(ip netns pids "abd-$1" 2> /dev/null); do
    kill -9 "$pid" 2> /dev/null || true
  done
}

finish() {
  local host
  for host in "${hosts[@]}"; do
    lose "$host"
    ip link delete "abd-$host" 2> /dev/null || true
    ip netns delete "abd-$host" 2> /dev/null || true
  done
  rm -rf "$work"
}
trap finish EXIT

# A namespace with a link to this one, and a home and an sshd of its own.
start_host() { # start_host HOST NUMBER
  ip netns add "abd-$1"
  ip link add "abd-$1" type veth peer name inside netns "abd-$1"
  ip address add "10.197.$2.1/24" dev "abd-$1"
  ip link set "abd-$1" up
  ip -n "abd-$1" address add "10.197.$2.2/24" dev inside
  ip -n "abd-$1" link set inside up
  start_sshd "$1" "$2"
  cat >> "$work/ssh_config" <<END
Host $1
  HostName 10.197.$2.2
END
}

# `ip netns exec` gives each host mounts of its own as well.
start_sshd() { # start_sshd HOST NUMBER
  cat > "$work/sshd_$1" <<END
ListenAddress 10.197.$2.2
HostKey $work/host_key
AuthorizedKeysFile $work/user_key.pub
PidFile none
StrictModes no
UsePAM no
PermitRootLogin yes
MaxStartups 100
END
  ip netns exec "abd-$1" sh -c "mount -t tmpfs home \"$HOME\" && exec $(command -v sshd) -f '$work/sshd_$1' -E '$work/log_$1'"
}

mkdir -p /run/sshd
ssh-keygen -q -t ed25519 -N '' -f "$work/host_key"
ssh-keygen -q -t ed25519 -N '' -f "$work/user_key"
cat > "$work/ssh_config" <<END
Host *
  User root
  IdentityFile $work/user_key
  IdentitiesOnly yes
  StrictHostKeyChecking no
  UserKnownHostsFile $work/known_hosts
  LogLevel ERROR
  ConnectTimeout 3
  ServerAliveInterval 1
  ServerAliveCountMax 3
END
start_host one 1
start_host two 2
for host in "${hosts[@]}"; do
  echo "2/ssh -F $work/ssh_config $host"
done > "$work/hosts"
cp -r "$folder" "$work/pieces"
cd "$work"
pieces=(pieces/*)
for piece in "${pieces[@]}"; do
  "$abd" monitor "$piece" | sed "s,^,$piece\t," || true
done | sort > here

# Judges all pieces, and loses a host once one was judged there.
judge() { # judge TITLE [COMMAND that loses it]
  local title=$1 begun took
  shift
  begun=$(date +%s.%N)
  parallel --tag --sshloginfile hosts --retries 3 --transferfile {} --cleanup --joblog log \
    "sleep $seconds; $abd monitor {}; [ \$? -le 5 ]" ::: "${pieces[@]}" > there 2> errors &
  local running=$!
  if [ $# -gt 0 ]; then
    while kill -0 "$running" 2> /dev/null && ! grep -q 'two' <(tail -n +2 log 2> /dev/null); do
      sleep 0.05
    done
    "$@"
  fi
  wait "$running" || true
  took=$(date +%s.%N)
  if ! sort there | cmp -s - here; then
    printf '%s: the verdicts differ\n' "$title"
    diff <(sort there) here || true
    cat errors
    exit 1
  fi
  printf '%s: %d pieces in %.1f s;' "$title" "${#pieces[@]}" "$(awk "BEGIN { print $took - $begun }")"
  for host in "${hosts[@]}"; do
    printf ' %d on %s' "$(awk -F'\t' -v host="$host" '$2 ~ host"$" && $7 != 255' log | wc -l)" "$host"
  done
  printf '\n'
  rm -f log
}

judge "both hosts"
judge "two loses its sshd" lose two
start_sshd two 2
judge "both hosts once more"
judge "two loses its link" ip link set abd-two down
