# What only files can show: each test begins with a fresh image `img`, and `before` is a copy of it.
mkdir "$room/files" && cd "$room/files" || exit 1
cp "$fresh" img
cp img before

# ends WORDS..: the status, and the lines that were written.
ends() {
    local lines
    lines=$("$program" "$@" </dev/null)
    printf '%s %s' "$?" "$lines"
}

# same NAME WANTED GOT
same() {
    if [ "$2" = "$3" ]; then told "$1" ""; else told "$1" "$3 in place of $2"; fi
}

mkdir folder
same "a file that is not there" "4 error read" "$(ends check none)"
same "a folder" "4 error read" "$(ends check folder)"
same "a folder as OUT" "5 " "$(ends run img folder)"
same "OUT in a folder that is not there" "5 " "$(ends run img none/out)"
same "no image" "3 error image 0" "$(ends check "$top/tests/run")"
same "an empty script" "0 " "$(ends run img out)"
told "an empty script leaves the image byte for byte" "$(cmp img out 2>&1)"
same "IN and OUT may be one name" "0 " "$(ends run img img)"
told "which it leaves byte for byte" "$(cmp img before 2>&1)"
same "a full disk" "5 " "$(ulimit -f 100; trap '' XFSZ; ends run img out2)"
told "leaves no OUT" "$([ ! -e out2 ] && [ ! -e out2.new ] || ls)"

# with_line N TAG KEPT: the fresh image, but that line N has this tag and the first KEPT of its bytes.
with_line() {
    local at=$((24 + 65 * $1))
    head -c "$at" before
    printf "\\$2"
    tail -c "+$((at + 2))" before | head -c "$3"
    tail -c "+$((at + 66))" before
}

with_line 5 2 0 >bad_meta
same "a bad line of metadata" "3 error meta 5" "$(ends run bad_meta out)"
with_line 2304 2 0 >bad
same "a bad line of an absent page" "0 ok 5056 bad 0" "$(ends check bad)"
same "which a run leaves" "0 " "$(ends run bad out)"
told "byte for byte" "$(cmp bad out 2>&1)"
with_line 2304 1 64 >weak
same "a weak line of storage" "0 ok 5056 bad 0" "$(ends check weak)"
same "which a run leaves too" "0 " "$(ends run weak out)"
told "byte for byte, with its mark" "$(cmp weak out 2>&1)"
printf '%s\n' 'vstore 0 01' 'poison volume 4' 'bwrite 3 02*512' 'poison block 3 6' >loses
same "media errors in a run" "ok ok ok ok" "$("$program" run img lossy <loses | paste -sd ' ')"
same "are in its image" "0 ok 5056 bad 2" "$(ends check lossy)"
same "two bad lines have no bytes there" "$(($(wc -c <img) - 128))" "$(wc -c <lossy)"
cp lossy bad_line
echo 'vdiscard 0 1' >gone
same "a page is discarded" "ok" "$("$program" run lossy lossy <gone)"
same "and its bad line counts no more" "0 ok 5056 bad 1" "$(ends check lossy)"
printf '%s\n' 'create b 2' 'create a 1' >makes
same "files made in a run" "ok ok" "$("$program" run img filed <makes | paste -sd ' ')"
echo list >lists
same "are listed in the next" "files a:1 b:2" "$("$program" run filed filed <lists)"

"$program" new large 4096 256 1024 >/dev/null
# little PROGRAM WORDS..: the status with little memory. A build that checks addresses wants more before it begins: it isn't tried.
little() {
    if grep -q __asan "$1"; then
        printf 6
    else
        (ulimit -v 12000; "$@" </dev/null >/dev/null; printf '%s' "$?")
    fi
}

same "little memory" "6" "$(little "$program" check large)"

# asked SCRIPT WORDS..: the status of nvmexplore, and what it wrote.
asked() {
    local lines
    lines=$("$explorer" "${@:2}" <<<"$1")
    printf '%s %s' "$?" "$lines"
}

question=$'vstore 0 01\n# look\nvload 0 1\n# never data 01\n# never data 02'
same "two questions" $'1 may inside 1 | volume 0 01,00*7\nnever' "$(asked "$question" img)"
same "a question of no name" "2 usage: nvmexplore IN < script" "$(asked "$question")"
same "a question of two names" "2 usage: nvmexplore IN < script" "$(asked "$question" img img)"
same "a question of a file that is not there" "4 error read" "$(asked "$question" none)"
same "a question of a folder" "4 error read" "$(asked "$question" folder)"
same "a question of no image" "3 error image 0" "$(asked "$question" "$top/tests/run")"
same "a question of a bad line of metadata" "3 error meta 5" "$(asked "$question" bad_meta)"
same "which is told before the script is read" "3 error meta 5" "$(asked restart bad_meta)"
same "a question of a bad line that a run left" $'1 may before 1\nnever' "$(asked $'# look\nvload 0 8\n# never poison volume 0 64\n# never data 01,00*7' bad_line)"
printf '%s\n' 'create f 1' 'fwrite f 0 01*64' 'poison file f 64' >loses_of_file
same "a media error in a file" "ok ok ok" "$("$program" run img bad_file <loses_of_file | paste -sd ' ')"
same "a question of it" $'1 may before 1\nmay before 1\nnever\nnever' "$(asked $'# look\nfread f 0 1\nfread f 0 128\n# never data 01 | _\n# never _ | poison file f 64 64\n# never data 00 | _\n# never _ | refused missing' bad_file)"
same "a question of no file" "1 may before 1" "$(asked $'# look\nfread f 0 1\n# never refused missing' img)"

same "a folder as script" "4" "$("$explorer" img <folder >said; echo "$?")"
same "is told" "error read" "$(cat said)"
same "a full device" "5" "$("$explorer" img <<<"$question" >/dev/full; echo "$?")"
same "little memory for a question" "6" "$(little "$explorer" large)"

# untaken N REASON LINE..: the script of these lines stops at line N for that reason, whatever is behind it.
untaken() {
    local script
    script=$(printf '%s\n' "${@:3}")
    same "line $1 of: ${script//$'\n'/, }" "7 error script $1 $2" "$(asked "$script" img)"
}

# in_program REASON LINE..: so does a program with one of these lines.
in_program() {
    local line
    for line in "${@:2}"; do untaken 2 "$1" '# a comment' "$line" '# look'; done
}

in_program not-in-a-program cut recover 'restart none' 'fail in 3' 'poison meta 0'
in_program command vload 'vload 0' nonsense
in_program before-the-look '# list' '# table' '# never data 00' '# never nonsense' '# may data 00'
in_program no-command '# refused'
untaken 3 again '# refused' '# begin' '# refused' 'vstore 0 01' '# look'
untaken 3 again '# begin' 'vstore 0 01' '# begin' '# look'
in_program spelling '# look now' '#look' '# Look' '#LIST' '#refused' '# refused now' '# Begin' '# begin now' '# idle' '#never data 00' '# NEVER _' '# Never this | or that' '# from 3'
in_program toolong "$(printf '%65537s')"

# in_look REASON LINE..: or a look of two reads.
in_look() {
    local line
    for line in "${@:2}"; do untaken 5 "$1" 'vstore 0 01' '# look' 'vload 0 1' 'bread 0 1' "$line" 'vload 0 1'; done
}

in_look not-in-a-look '# begin' '# refused' 'vstore 0 01' 'vsync 0 1' 'bexists 0' 'load 0 0 1' list 'cut in 1'
in_look command nonsense
in_look again '# look'
in_look spelling '# list now' '# table now' '#table' '#never data 00 | _'
in_look 'replies 1 of 2' '# never data 00'
in_look 'replies 3 of 2' '# never data 00 | _ | _'
in_look nothing-asked '# may _ | _'
in_look 'reply 1' '# never' '# may' '# never refused device | _' '# never data 0 | _' '# never data 00*65537 | _' '# never ok | _' '# never _|_'
in_look 'reply 2' '# never _ |'
in_look 'reply 1 kind' '# never scarred 0 | _' '# never poison file f 0 64 | _'
in_look 'reply 2 kind' '# never _ | poison volume 0 64'
in_look 'reply 1 length' '# never data 00*2 | _'
in_look 'reply 2 length' '# never _ | data 00*511' '# never data 00 | data 00'
in_look 'reply 1 place' '# never poison volume 64 64 | _' '# never poison volume 1 64 | _'
in_look 'reply 2 place' '# never _ | scarred 1' '# never _ | poison block 1 0' '# never _ | poison block 0 8'
in_look 'reply 1 refusal' '# never refused range | _' '# never refused missing | _'
in_look 'reply 2 refusal' '# never _ | refused range'

# of_file REASON REPLIES..: or a question of a file.
of_file() {
    local replies
    for replies in "${@:2}"; do untaken 3 "$1" '# look' 'fread f 0 1' "# never $replies"; done
}

of_file 'reply 1' 'poison file f 0' 'poison file F 0 64'
of_file 'reply 1 kind' 'poison file g 0 64' 'poison volume 0 64' 'poison block 0 0' 'scarred 0'
of_file 'reply 1 length' 'data 00*2'
of_file 'reply 1 place' 'poison file f 64 64'
of_file 'reply 1 refusal' 'refused length' 'refused limit' 'refused exists'
of_file 'replies 2 of 1' '_ | _'
untaken 3 'reply 1 refusal' '# look' 'vload 8192 1' '# never data 00'
untaken 3 'reply 1 refusal' '# look' 'fread f 0 0' '# never refused range'
for line in '# never data 00' '# table' '# list'; do
    untaken 4 read-after-a-question '# look' 'vload 0 1' "$line" 'vload 64 1'
done
untaken 4 nothing-asked 'vstore 0 01' '# look' 'vload 0 1'
untaken 4 nothing-asked 'vstore 0 01' '# look' '# table'
untaken 2 nothing-asked 'vstore 0 01'
untaken 3 nothing-asked '# looks' '## look'
untaken 2 nothing-asked ''
told "no question changes an image" "$(cmp img before 2>&1)"

# Stopped by a signal while it waits for its script: IN is as before, and there is no OUT.
mkfifo script
"$program" run img stopped <script >/dev/null 2>&1 &
running=$!
exec 3>script
echo 'vstore 0 01' >&3
sleep 0.2
kill -KILL "$running"
wait "$running" 2>/dev/null
exec 3>&-
told "stopped by a signal" "$(cmp img before 2>&1; [ ! -e stopped ] || echo 'OUT is there')"

# The file without permission can be told only by who may not read it.
if [ "$(id -u)" != 0 ]; then
    cp img closed && chmod 000 closed
    same "a file without permission" "4 error read" "$(ends check closed)"
fi
cd "$top" || exit 1
