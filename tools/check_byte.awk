# check_byte.awk: the check byte that would fit line `place` of a plan, beside the one that stands there. A
# line's bytes, its check byte included, have to sum to 0 modulo 256.
NR == place {
    for (i = 1; i < length($0) - 1; i += 2) sum += from_hex(substr($0, i, 2))
    printf "check byte %s fits, %s stands there\n", sprintf("%02X", (256 - sum % 256) % 256), substr($0, i)
}
