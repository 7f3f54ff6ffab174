#!/bin/sh
# Times the proved SHA-512 and SHA-256 beside ordinary ones in Rust, and then OpenSSL's, on blocks of the same size. Run it from the top
# of the repository; it needs rt, rustc and openssl.
set -e
bench/timed hash 'SHA-512 and SHA-256'

# OpenSSL says how many thousands of bytes it hashes in a second; ours took so many seconds for 64 MiB.
scripts/progress "timing OpenSSL's" \
    sh -c 'for h in sha512 sha256; do openssl speed -elapsed -seconds 3 -bytes 65536 -evp $h; done >target/bench/openssl.out'
awk '
    FNR == NR && $1 ~ /^SHA-/ { name = tolower($1); gsub(/[-,]/, "", name) }
    FNR == NR && $1 == "proved" { ours[name] = 64 * 1024 * 1024 / $2 }
    FNR != NR && $1 ~ /^sha(512|256)$/ { theirs[$1] = $2 * 1000 }
    END {
        split("sha512 sha256", names)
        for (i = 1; i <= 2; i++) {
            n = names[i]
            if (!ours[n] || !theirs[n]) { print "hash.sh: no time was found for " n; exit 1 }
            printf "%s, ours to OpenSSL, seconds for the same bytes: ratio %.2f\n", n, theirs[n] / ours[n]
        }
    }
' target/bench/hash.out target/bench/openssl.out
