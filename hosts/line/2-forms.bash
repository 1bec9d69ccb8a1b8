# Forms of lines and of the input's end.
suite='suite 2 2 1 1 1'
lines "empty input" 0 </dev/null
ends "one newline" 'no 14' < <(printf '\n')
ends "no last newline" $'ok 1\nat 1 7' < <(printf '%s\nins - - 5 7\nlook - 5' "$suite")
ends "an empty line at the end" $'suite ok\nno 14' < <(printf '%s\n\n' "$suite")
ends "a carriage return" $'suite ok\nno 14' < <(printf '%s\nlook - 5\r\n' "$suite")
ends "NUL bytes" $'suite ok\nno 14\nno 14\nnone 0' < <(printf '%s\n\0\nlook - 5\0\nlook - 5\n' "$suite")
ends "bytes of 255" $'suite ok\nno 14\nno 14\nnone 0' < <(printf '%s\n\377\nlook\377- 5\nlook - 5' "$suite")
ends "a NUL at the end" $'none 0\nno 14' < <(printf '%s\nlook - 5\n\0' "$suite")

# Votes up to the longest line are too many members; a byte more makes the line too long.
printf -v votes ' 1%.0s' $(seq 34)
ends "a line of 80 bytes" $'no 2\nsuite ok' < <(printf 'suite 1 1%s 10\n%s\n' "$votes" "$suite")
ends "a line of 81 bytes" $'no 14\nsuite ok' < <(printf 'suite 1 1%s 100\n%s\n' "$votes" "$suite")
ends "80 bytes without a newline" 'no 2' < <(printf 'suite 1 1%s 10' "$votes")
ends "81 bytes without a newline" 'no 14' < <(printf 'suite 1 1%s 100' "$votes")

# Long lines. What stands at their front or end would be a command if it stood alone.
mega() { head -c 1048576 /dev/zero | tr '\0' "$1"; }
ends "a line of 1 MiB" $'suite ok\nno 14\nnone 0' < <(echo "$suite" && mega x && printf '\nlook - 5\n')
ends "1 MiB after a command" $'suite ok\nno 14\nnone 0' < <(printf '%s\nlook - 5' "$suite" && mega ' ' && printf '\nlook - 5\n')
ends "1 MiB before a command" $'suite ok\nno 14\nnone 0' < <(echo "$suite" && mega 0 && printf 'look - 5\nlook - 5')
ends "1 MiB of votes" $'no 14\nsuite ok' < <(printf 'suite 1 1' && mega x | sed 's/xx/ 1/g' && printf '\n%s\n' "$suite")
ends "1 MiB alone" 'no 14' < <(mega 7)

# Input that comes in small parts.
ends "a slow pipe" $'suite ok\nok 1\nat 1 65535' < <(
    for part in 'sui' 'te 2 2 1 1 1' $'\n' $'ins - - 104' $'8575 65535\nlook' ' - 1048575'; do
        printf '%s' "$part" && sleep 0.02
    done
)
