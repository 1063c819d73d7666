#!/bin/bash
# Compares the answers in crates/vectors/stdout with OpenSSL and its GOST engine: every answer
# that is no error, each renewal made of its single blocks.  Takes some minutes, most of them for
# the requests to renew a key 4096 times.
#
#     bash tools/crosscheck.sh
#
# Needs the Debian packages openssl, libengine-gost-openssl and xxd.  It is no part of the
# repository's own checks.
set -euo pipefail
cd "$(dirname "$0")/../crates/vectors"

# crypt CIPHER KEY -e|-d DIGITS: blocks through OpenSSL.  The engine has no ECB mode of Magma; its
# CBC mode with an initial vector of zeros does the same to a single block.
crypt() {
    local mode=(-aes-256-ecb)
    [ "$1" = magma ] && mode=(-engine gost -magma-cbc -iv 0000000000000000)
    xxd -r -p <<<"$4" | openssl enc "${mode[@]}" -nopad -K "$2" "$3" 2>/dev/null | xxd -p -u -c 32
}

# renew CIPHER KEY TIMES
renew() {
    local key=$2 parts=(808182838485868788898A8B8C8D8E8F909192939495969798999A9B9C9D9E9F)
    [ "$1" = magma ] && parts=(8081828384858687 88898A8B8C8D8E8F 9091929394959697 98999A9B9C9D9E9F)
    for ((i = 0; i < 10#$3; i++)); do
        local new=
        for part in "${parts[@]}"; do new+=$(crypt "$1" "$key" -e "$part"); done
        key=$new
    done
    echo "${key^^}"
}

agree=0 differ=0
while read -r request cipher key operand answer; do
    case $request in
        encipher) given=$(crypt "$cipher" "$key" -e "$operand") ;;
        decipher) given=$(crypt "$cipher" "$key" -d "$operand") ;;
        renew) given=$(renew "$cipher" "$key" "$operand") ;;
        *) given="no such request here" ;;
    esac
    if [ "$given" = "$answer" ]; then
        agree=$((agree + 1))
    else
        differ=$((differ + 1))
        echo "$request $cipher $key $operand: $answer, but OpenSSL gives $given"
    fi
done < <(paste -d ' ' stdin stdout | grep -a -v 'error: [a-z ]*$')
echo "$agree answers agree, $differ differ"
[ "$differ" -eq 0 ] && [ "$agree" -gt 0 ]
