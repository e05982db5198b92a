# Numbers to their groups of seven bits, low group first, top bit set on every byte but the last, as escapes for printf.
{
    for (i = 1; i <= NF; i++) {
        for (n = $i; n >= 128; n = int(n / 128))
            printf "\\%03o", 128 + n % 128
        printf "\\%03o", n
    }
}
