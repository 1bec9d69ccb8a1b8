# Generated scripts: many short ones, then one that is longer than any buffer.
scripts=$((count / 500))
for ((i = 0; i < scripts; i++)); do
    "$out/generate" script $((seed * 100000 + i)) $((1 + i % 997)) >"$work/script"
    both "script $i of seed $seed" <"$work/script"
done
"$out/generate" script "$seed" "$count" >"$work/script"
both "a script of $count lines" <"$work/script"
# A first line of every length moves the commands over every place where a buffer may end.
for ((i = 0; i <= 40; i++)); do
    { printf 'x%.0s' $(seq 0 "$i") && echo && head -n 9000 "$work/script"; } >"$work/moved"
    both "a script moved by $((i + 2)) bytes" <"$work/moved"
done
