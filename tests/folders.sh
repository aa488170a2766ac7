# The folders of examples/ and tests/.

# said_of FOLDER FILE DEFAULT: what that file of the folder says, or the default.
said_of() {
    if [ -f "$1/$2" ]; then cat "$1/$2"; else printf '%s\n' "$3"; fi
}

# held SCRIPT LINES STATUS PROGRAM WORDS..: says how the run differs from these lines and this status, or nothing.
held() {
    local ended
    timeout 60 "${@:4}" <"$1" >said 2>complaints
    ended=$?
    [ "$ended" = "$3" ] || echo "status $ended in place of $3"
    cmp "$2" said 2>&1
    [ ! -s complaints ] || head -n 3 complaints
}

# answered FOLDER: the same of its question. It leaves the image as it is, and nvmhost takes the same script.
answered() {
    cp img asked
    held "$1/question" "$1/answers" "$(said_of "$1" question_status 0)" "$explorer" img
    cmp img asked 2>&1
    "$program" run img performed <"$1/question" >said || echo "nvmhost: status $?"
    ! grep syntax said
}

# performed FOLDER: the same of its script.
performed() {
    local words
    mapfile -t words < <(said_of "$1" words $'run\nimg\nout')
    held "$1/script" "$1/replies" "$(said_of "$1" status 0)" "$program" "${words[@]}"
}

# differs FOLDER: the same of all that it has.
differs() {
    local part parts=0
    [ ! -f "$1/question" ] || answered "$1"
    [ ! -f "$1/script" ] || performed "$1"
    for part in "$1"/*/; do
        [ ! -d "$part" ] || { parts=1; differs "${part%/}"; }
    done
    [ -f "$1/question" ] || [ -f "$1/script" ] || [ "$parts" = 1 ] || echo "nothing to run"
}

# on_image FOLDER: the same on the image that it asks for.
on_image() {
    local sizes
    read -r -a sizes < <(said_of "$1" image '8 2 32')
    rm img
    case ${sizes[0]} in
        none) ;;
        newbyte) "$program" newbyte img "${sizes[@]:1}" >/dev/null || echo "no image" ;;
        *) "$program" new img "${sizes[@]}" >/dev/null || echo "no image" ;;
    esac
    differs "$1"
}

for folder in examples/*/ tests/*/; do
    later "${folder%/}" on_image "$top/${folder%/}"
done
