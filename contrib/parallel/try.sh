# shellcheck shell=sh disable=SC2154,SC2034
# Part of contrib/try.sh: two hosts, each an sshd on loopback with keys of its own; one is stopped.

ssh=$work/ssh
mkdir "$ssh" "$ssh/jobs" "$ssh/parallel"
if [ ! -d /run/sshd ]; then
    mkdir -m 755 /run/sshd
    made=/run/sshd
fi
ssh-keygen -q -t ed25519 -N '' -f "$ssh/host_key"
ssh-keygen -q -t ed25519 -N '' -f "$ssh/user_key"

start_host() {                  # start_host NAME: an sshd on a port of its own
    port=$(free_port)
    cat >"$ssh/$1.sshd" <<END
Port $port
ListenAddress 127.0.0.1
HostKey $ssh/host_key
AuthorizedKeysFile $ssh/user_key.pub
PidFile none
UsePAM no
PasswordAuthentication no
KbdInteractiveAuthentication no
PermitRootLogin prohibit-password
StrictModes no
END
    cat >>"$ssh/config" <<END
Host $1
  Port $port
  HostName 127.0.0.1
  IdentityFile $ssh/user_key
  IdentitiesOnly yes
  UserKnownHostsFile $ssh/known_hosts
  StrictHostKeyChecking accept-new
  BatchMode yes
  ConnectTimeout 5
  LogLevel ERROR
END
    /usr/sbin/sshd -D -e -f "$ssh/$1.sshd" 2>"$ssh/$1.log" &
    started="$started $!"
    soon is_open "$port"
}
start_host one
start_host two
second=${started##* }
PARALLEL_HOME=$ssh/parallel
PARALLEL_SSH="ssh -F $ssh/config"
export PARALLEL_HOME PARALLEL_SSH

number=0
while [ $number -lt 40 ]; do
    number=$((number + 1))
    cp "$examples/letter.pcl" "$ssh/jobs/letter $number.pcl"
done
cp "$examples/letter.pcl" "$ssh/jobs/it's 2
lines.pcl"
cp "$examples/unset_size.pcl" "$ssh/jobs/-bad.pcl"
cp -R "$examples" "$ssh/a fleet"

# The program of the hosts: it tells which of them ran it, and can be made to die at work, once.
cat >"$work/bin/on_host" <<END
#!/bin/sh
echo "\${SSH_CONNECTION##* }" >>"$ssh/ran"
if rmdir "$ssh/die" 2>/dev/null; then
    echo 'PASS pages=1 marks=1 jobs/from a host that died'
    kill -9 \$\$
fi
exec "$work/bin/pclcheck" "\$@"
END
chmod 755 "$work/bin/on_host"

run() {                         # run STATUS [FORM]: the names of the jobs go to both hosts
    rm -f "$ssh/ran"
    status=0
    (
        cd "$ssh"
        find jobs ! -type d -print0 | sort -z |
            PCLCHECK=$work/bin/on_host BATCH=15 "$here/parallel/check_everywhere" \
                "$ssh/a fleet/shop.fleet" 1/one,1/two "${2:-line}" >lines 2>told
    ) || status=$?
    cat "$ssh/told"
    is_equal "$status" "$1"
}
alone() {                       # the lines of one run of the program on this machine
    cd "$ssh" || return
    find jobs ! -type d -print0 | sort -z |
        "$work/bin/pclcheck" check --format "${1:-line}" -f "a fleet/shop.fleet" --files0-from -
}
are_those_of_one_run() {
    (alone "$@") >"$ssh/due" || :
    diff "$ssh/due" "$ssh/lines"
}
are_hosts() { is_equal "$(sort -u "$ssh/ran" | wc -l)" "$1"; }

say 'parallel: a run with a job that fails ends with 1' run 1
say 'parallel: its lines are those of one run, in order' are_those_of_one_run
say 'parallel: both hosts had batches' are_hosts 2
say 'parallel: it counts' \
    has '42 jobs: 42 have a line' "$ssh/told"
say 'parallel: objects of JSON' run 1 json
say 'parallel: they are those of one run' are_those_of_one_run json

mkdir "$ssh/die"
say 'parallel: a host that dies at work' run 1
say 'parallel: it did die' [ ! -e "$ssh/die" ]
say 'parallel: loses no job and brings no line of its own' are_those_of_one_run

end "$second"
say 'parallel: a host that is down' run 1
say 'parallel: loses no job' are_those_of_one_run
say 'parallel: the other had all batches' are_hosts 1

ln -s nowhere "$ssh/jobs/gone.pcl"
say 'parallel: a job that cannot be read: 3' run 3
say 'parallel: it has its line, once, and so have the others' are_those_of_one_run
rm "$ssh/jobs/gone.pcl"
sed -i 3p "$ssh/a fleet/front_desk.profile"
say 'parallel: a profile that is refused: 2' run 2
say 'parallel: is told' has 'front_desk.profile:4 Repeated' "$ssh/told"

stop_all
say 'parallel: all hosts are down: 3' run 3
say 'parallel: all jobs are told to be without a line' \
    has '42 jobs: 0 have a line' "$ssh/told"
unset PARALLEL_HOME PARALLEL_SSH
