#!/bin/sh
# The first process of a container: at SIGTERM, as of `docker stop`, it tells the relay to stop, and
# it ends as the relay ends.
#
#     ENTRYPOINT ["/usr/bin/entry.sh", "/var/lib/cnrelay"]
#     HEALTHCHECK CMD cnrelay report /var/lib/cnrelay
#     docker run --stop-timeout 300 ..
dir=${1:-/var/lib/cnrelay}
cnrelay=${CNRELAY:-cnrelay}
"$cnrelay" serve "$dir" &
relay=$!
asked=
trap 'asked=yes; "$cnrelay" stop "$dir" >/dev/null' TERM INT
wait "$relay"
status=$?
# A wait that a signal has ended tells nothing of the relay.
while [ -n "$asked" ]; do
    asked=
    wait "$relay"
    status=$?
done
exit "$status"
