# On images of survival unit 1, where a cut keeps or loses each byte of a word independently.

# on_bytes COMMAND..: the same on such an image.
on_bytes() {
    "$program" newbyte img 8 2 32 >/dev/null || echo "no image"
    "$@"
}

# scripts FOLDER: how its scripts differ from their replies, those of its parts too; nvmexplore is not asked.
scripts() {
    local part
    [ ! -f "$1/script" ] || performed "$1"
    for part in "$1"/*/; do
        [ ! -d "$part" ] || scripts "${part%/}"
    done
}

# A restart that keeps all first values, or all last ones, shows no unit. The sizes are those of a fresh image.
for folder in examples/*/; do
    found=$(cat "$folder"script "$folder"*/script 2>/dev/null)
    if [ ! -f "${folder}image" ] && grep -q '^restart \(none\|all\)' <<<"$found" && ! grep -q '^restart seed' <<<"$found"; then
        later "${folder%/}, on bytes" on_bytes scripts "$top/${folder%/}"
    fi
done

later "two words that are stored over, by 256 seeds, on each unit" by_python torn_words
