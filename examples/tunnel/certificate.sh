#!/bin/sh
# Makes a key and a certificate of its own in NAME.pem, readable for its owner alone, and the certificate alone in NAME.cert.
#
#   examples/tunnel/certificate.sh NAME
#
# NAME.pem stays where it was made. NAME.cert is given to the other side, over a way that both trust, and is put into its list.
set -eu
name=$1
(umask 077 && openssl req -x509 -newkey ec -pkeyopt ec_paramgen_curve:prime256v1 -nodes -days 3650 -subj "/CN=$(basename "$name")" \
    -keyout "$name.key" -out "$name.cert" 2>/dev/null && cat "$name.key" "$name.cert" >"$name.pem" && rm "$name.key")
