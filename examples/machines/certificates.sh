#!/bin/sh
# certificates.sh DIRECTORY [NAME ..]: makes an authority of the group's own in that directory, and by it a key and a
# certificate for each name: machine-0, machine-1, machine-2 and plant, if none is given. It takes openssl.
#
# Do it on a computer that is no machine of the group. Each machine gets ca.crt and the key and the certificate of its
# own name, into /etc/plc/tls; the plant's clients get those of plant. Keep ca.key away from all of them: whoever has it
# lets anybody in. Where the directory has an authority it's kept, so that a name can be added later.
set -eu
umask 077
[ $# -ge 1 ] || { sed -n '2,7s/^# *//p' "$0"; exit 1; }
directory=$1
shift
[ $# -ge 1 ] || set -- machine-0 machine-1 machine-2 plant
mkdir -p "$directory"
cd "$directory"

curve="-newkey ec -pkeyopt ec_paramgen_curve:prime256v1 -nodes"
if [ ! -e ca.key ]; then
    openssl req -x509 $curve -days 7300 -subj "/CN=authority of a group" -keyout ca.key -out ca.crt
fi
for name; do
    if [ -e "$name.key" ]; then
        echo "$name.key is there, and is kept" >&2
        continue
    fi
    openssl req -new $curve -subj "/CN=$name" -keyout "$name.key" -out "$name.request"
    echo "subjectAltName = DNS:$name" > "$name.extension"
    openssl x509 -req -in "$name.request" -CA ca.crt -CAkey ca.key -CAcreateserial -days 3650 \
        -extfile "$name.extension" -out "$name.crt"
    rm "$name.request" "$name.extension"
done
