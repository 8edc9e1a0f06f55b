# shellcheck shell=sh disable=SC2154,SC2034
# Part of contrib/try.sh: the backend alone, with its own troubles, and then behind a private cupsd;
# and there the filter.

gate=$work/bin/pclgate
install -m 755 "$here/cups/pclgate" "$gate"
cups=$work/cups
mkdir "$cups" "$cups/fleets" "$cups/alone" "$cups/alone/backend" "$cups/alone/tmp"
cp "$examples"/*.profile "$cups/fleets"
cp "$examples/shop.fleet" "$cups/fleets/shop.fleet"
printf 'front_desk.profile\nback_office.profile\nexport_desk.profile\n' >"$cups/fleets/all.fleet"
sed 3p "$examples/front_desk.profile" >"$cups/fleets/faulty.profile"
echo front_desk.profile >"$cups/fleets/front.fleet"
echo faulty.profile >"$cups/fleets/broken.fleet"
# It passes alone. As two in one stream it does not: the second begins where the first ended.
printf '\033*p+1500Y\033*c300a1500b0P' >"$cups/once.pcl"

# shellcheck source=/dev/null
. "$here/cups/try_alone.sh"
# shellcheck source=/dev/null
. "$here/cups/try_attacks.sh"
# shellcheck source=/dev/null
. "$here/cups/try_queue.sh"
# shellcheck source=/dev/null
. "$here/cups/try_filter.sh"
unset CUPS_SERVER
