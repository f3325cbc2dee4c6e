# hex.awk: numbers in the hexadecimal of a plan, letters in either case. Taken in by the other files.
function from_hex(digits,    i, sum) {
    for (i = 1; i <= length(digits); i++)
        sum = 16 * sum + index("0123456789ABCDEF", toupper(substr(digits, i, 1))) - 1
    return sum
}
