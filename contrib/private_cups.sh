# shellcheck shell=sh disable=SC2154,SC2034
# Part of contrib/try.sh: a private cupsd in a folder.

# make_cups FOLDER [LINE..]: what it needs, with further lines of cups-files.conf; its backends and
# filters lie in FOLDER/bin, and begin as those of the system for sockets and for ipp.
make_cups() {
    cups=$1
    shift
    mkdir -p "$cups/etc" "$cups/bin/backend" "$cups/bin/filter" "$cups/spool" "$cups/cache" \
        "$cups/run" "$cups/log" "$cups/tmp"
    chgrp lp "$cups/tmp"
    chmod 1770 "$cups/tmp"
    ln -s /usr/lib/cups/daemon "$cups/bin/daemon"
    for filter in /usr/lib/cups/filter/*; do ln -s "$filter" "$cups/bin/filter"; done
    cp /usr/lib/cups/backend/socket /usr/lib/cups/backend/ipp "$cups/bin/backend"
    chmod 755 "$cups/bin/backend/ipp"
    cat >"$cups/etc/cups-files.conf" <<END
User lp
Group lp
SystemGroup root
ServerRoot $cups/etc
ServerBin $cups/bin
DataDir /usr/share/cups
CacheDir $cups/cache
StateDir $cups/run
RequestRoot $cups/spool
TempDir $cups/tmp
AccessLog $cups/log/access
ErrorLog $cups/log/error
PageLog $cups/log/page
Printcap $cups/printcap
END
    for line; do echo "$line" >>"$cups/etc/cups-files.conf"; done
    port=$(free_port)
    cat >"$cups/etc/cupsd.conf" <<END
Listen 127.0.0.1:$port
LogLevel info
MaxLogSize 0
Browsing No
WebInterface No
DefaultAuthType None
ErrorPolicy abort-job
<Location />
  Order allow,deny
  Allow localhost
</Location>
<Policy default>
  JobPrivateAccess all
  JobPrivateValues none
  SubscriptionPrivateAccess all
  SubscriptionPrivateValues none
  <Limit All>
    Order allow,deny
    Allow localhost
  </Limit>
</Policy>
END
    CUPS_SERVER=127.0.0.1:$port
    export CUPS_SERVER
    log=$cups/log/error
}
start_cups() {
    /usr/sbin/cupsd -f -c "$cups/etc/cupsd.conf" -s "$cups/etc/cups-files.conf" 2>"$cups/log/err" &
    cupsd=$!
    started="$started $cupsd"
    soon is_open "$port"
}

# start_printer FOLDER: a stand-in for a printer, whose device is then $printer.
start_printer() {
    mkdir -p "$1"
    python3 "$here/try_printer.py" "$1" &
    started="$started $!"
    soon [ -f "$1/port" ] && printer=socket://127.0.0.1:$(cat "$1/port")
}

print_job() {                   # print_job WORDS..: lp; the job is then in $name, as front-1
    name=$(lp "$@") || name='request id is none-0 '
    name=${name#request id is }
    name=${name%% *}
    number=${name##*-}
}
is_done() { lpstat -W completed -o | grep -q "^$name "; }
state() { lpstat -l -W "${1:-not-completed}" -o | grep -A 3 "^$name "; }
