# What takes long: each call of a command stopped in turn, the longest list, and scripts that are drawn. Each test is a job of its own.
# after STOP LEADS READS OLD NEW COMMAND: each call of the command fails (or takes the power) in turn, until it is done. The
# script before it is in `before_it`. What is read after each is OLD or NEW, each on as many lines as it has, and nothing else;
# with OLD and NEW of several lines any of them may be old or new where `mixed` is set.
after() {
    local k=0 replies answer found
    while :; do
        k=$((k + 1))
        printf '%s\n' "$before_it" "$1 in $k" "$6" "$2" "$3" >every
        replies=$("$program" run img out <every | tail -n "$(($(wc -l <<<"$2") + $(wc -l <<<"$3") + 1))")
        answer=$(head -n 1 <<<"$replies")
        found=$(tail -n "$(wc -l <<<"$3")" <<<"$replies")
        case $answer in
            ok | data*) break ;;
            'refused device' | 'power lost') ;;
            *) echo "$1 in $k: $answer" ;;
        esac
        allowed "$found" "$4" "$5" || echo "$1 in $k: $found"
        [ "$k" -lt 600 ] || { echo "still not done"; break; }
    done
    [ "$k" -gt 1 ] || echo "no call failed"
}

# allowed FOUND OLD NEW
allowed() {
    local line=0 found
    if [ "$1" = "$2" ] || [ "$1" = "$3" ]; then return 0; fi
    [ -n "${mixed-}" ] || return 1
    while read -r found; do
        line=$((line + 1))
        [ "$found" = "$(sed -n "${line}p" <<<"$2")" ] || [ "$found" = "$(sed -n "${line}p" <<<"$3")" ] || return 1
    done <<<"$1"
}

# each NAME READS OLD NEW COMMAND
each() {
    later "$1, each call failing, and a recovery" after fail recover "${@:2}"
    later "$1, each call failing, and a restart" after fail $'cut\nrestart all' "${@:2}"
    later "$1, each call taking the power" after cut 'restart all' "${@:2}"
    [ -n "${mixed-}" ] || later "$1, each call taking the power, on bytes" on_bytes after cut 'restart seed 1' "${@:2}"
}

old_blocks=$'data 11*512\ndata 11*512'
new_blocks=$'data 22*512\ndata 22*512'
no_blocks=$'data 00*512\ndata 00*512'
both_blocks=$'bread 0 1\nbread 1 1'
before_it='bwrite 0 11*1024'
each 'two blocks written together' "$both_blocks" "$old_blocks" "$new_blocks" 'batomic 0 22*1024'
each 'two ranges written together' "$both_blocks" "$old_blocks" "$new_blocks" 'bmulti 0 22*512 1 22*512'
each 'two blocks discarded' "$both_blocks" "$old_blocks" "$no_blocks" 'bdiscard 0 2'
each 'two blocks scarred' "$both_blocks" "$old_blocks" $'scarred 0\nscarred 1' 'bscar 0 2'
mixed=yes each 'two blocks written' "$both_blocks" "$old_blocks" "$new_blocks" 'bwrite 0 22*1024'
mixed=yes each 'two blocks discarded by a hint' "$both_blocks" "$old_blocks" "$no_blocks" 'bdiscardif 0 2'
each 'a read' "$both_blocks" "$old_blocks" "$old_blocks" 'bread 0 2'
before_it=$'vstore 0 11*8192\nvsync 0 8192'
each 'two pages discarded' $'vexists 0\nvexists 1' $'yes\nyes' $'no\nno' 'vdiscard 0 2'
mixed=yes each 'two pages discarded by a hint' $'vexists 0\nvexists 1' $'yes\nyes' $'no\nno' 'vdiscardif 0 2'
mixed=yes each 'a store over two words' $'vload 0 8\nvload 8 8' $'data 11*8\ndata 11*8' $'data 22*8\ndata 22*8' 'vstore 0 22*16'
each 'a sync' 'vload 0 128' 'data 11*128' 'data 11*128' 'vsync 0 128'
before_it='create a 3'
each 'a creation' 'list' 'files a:3' 'files a:3 b:2' 'create b 2'
each 'a deletion of a file of three pages' 'list' 'files a:3' 'files' 'delete a'
each 'a renaming' 'list' 'files a:3' 'files b:3' 'rename a b'
each 'a resize' 'list' 'files a:3' 'files a:1' 'resize a 1'
before_it=$'create a 2\nfwrite a 0 05'
mixed=yes each 'a write over a page and a hole of a file' $'fread a 4092 4\nfread a 4096 4' $'data 00*4\ndata 00*4' $'data 22*4\ndata 22*4' 'fwrite a 4092 22*8'
before_it=$'create a 2\nmap a 0 8192 shared\nstore 0 0 11*8192\nsync 0 0 8192\nstore 0 0 22*8\nstore 0 200 22*8\nstore 0 4096 22*8'
flushed=$'fread a 0 8\nfread a 200 8\nfread a 4096 8'
later "a flush of three spans, each call failing, and a recovery" after fail recover "$flushed" $'data 22*8\ndata 22*8\ndata 22*8' $'data 22*8\ndata 22*8\ndata 22*8' 'flush 0 0 8 200 8 4096 8'
mixed=yes
later "a flush of three spans, each call failing, and a restart" after fail $'cut\nrestart none' "$flushed" $'data 11*8\ndata 11*8\ndata 11*8' $'data 22*8\ndata 22*8\ndata 22*8' 'flush 0 0 8 200 8 4096 8'
later "a flush of three spans, each call taking the power" after cut 'restart none' "$flushed" $'data 11*8\ndata 11*8\ndata 11*8' $'data 22*8\ndata 22*8\ndata 22*8' 'flush 0 0 8 200 8 4096 8'
mixed=''
before_it=$'create a 2\nmap a 0 8192 shared'
mixed=yes each 'a store over two holes of a mapped file' $'fread a 4092 4\nfread a 4096 4' $'data 00*4\ndata 00*4' $'data 22*4\ndata 22*4' 'store 0 4092 22*8'
before_it=$'create a 1\nmap a 0 4096 shared\nstore 0 0 11*128\nweaken file a 0'
each 'a flush that loses a line' 'event' 'none' 'event a 0 64 unmapped restart' 'flush 0 0 128'
before_it=$'create a 1\nfwrite a 0 11\npoison file a 0'
each 'a clear of a line of a file' 'fread a 0 1' 'poison file a 0 64' 'data 00' 'clear file a 0'
before_it=''
each 'a store over two absent pages' $'vexists 0\nvexists 1' $'no\nno' $'yes\nyes' 'vstore 4092 22*8'
before_it=$'vstore 0 11\npoison volume 0'
each 'a clear' 'vload 0 1' 'poison volume 0 64' 'data 00' 'clear volume 0'

before_it=$'create a 3\nfwrite a 0 11*4096\nfwrite a 8192 11\nfsync a\nweaken file a 8192'
each 'an atomic write in one page' $'fread a 0 4\nfread a 4092 4' $'data 11*4\ndata 11*4' $'data 22*4\ndata 22*4' 'fatomic a 0 22*4096'
each 'an atomic write of two ranges in three pages' $'fread a 4094 4\nfread a 8192 4' $'data 11*2,00*2\ndata 11,00*3' $'data 22*4\ndata 22*4' 'fmulti a 4094 22*4 8192 22*4'
later "an atomic write of two ranges in three pages, each call taking the power, and nothing written back" after cut 'restart none' $'fread a 4094 4\nfread a 8192 4' $'data 11*2,00*2\ndata 11,00*3' $'data 22*4\ndata 22*4' 'fmulti a 4094 22*4 8192 22*4'
each 'a discard of pages of a file' $'fread a 0 4\nfread a 8192 1' $'data 11*4\ndata 11' $'data 00*4\ndata 00' 'fdiscard a 0 3'
before_it=$'create a 2\nfwrite a 0 11*8192\nfsync a\nfwrite a 0 22*8\nfwrite a 200 22*8\nfwrite a 4096 22*8'
later "a sync of a file, each call failing, and a recovery" after fail recover "$flushed" $'data 22*8\ndata 22*8\ndata 22*8' $'data 22*8\ndata 22*8\ndata 22*8' 'fsync a'
mixed=yes
later "a sync of a file, each call failing, and a restart" after fail $'cut\nrestart none' "$flushed" $'data 11*8\ndata 11*8\ndata 11*8' $'data 22*8\ndata 22*8\ndata 22*8' 'fsync a'
later "a sync of a file, each call taking the power" after cut 'restart none' "$flushed" $'data 11*8\ndata 11*8\ndata 11*8' $'data 22*8\ndata 22*8\ndata 22*8' 'fsync a'
mixed=''

# listed: of eight words of four values each the last line of the list, how many lines it has, and how many of them differ.
listed() {
    local said
    { for value in 01 02 03; do printf "vstore %s $value\n" 0 8 16 24 32 40 48 56; done; printf '# look\nvload 0 64\n# list\n'; } >eight
    "$explorer" img <eight >list
    said="$(tail -n 1 list), $(wc -l <list) lines, $(sort -u list | wc -l) of them different"
    [ "$said" = "outcomes 65536, 65537 lines, 65537 of them different" ] || echo "$said"
}
later "all that are listed" listed

later "2,000 commands on files, drawn from a seed, against a model" by_python drawn_files
later "scripts with cuts, failures and media errors" by_python stories
later "runs one after another, whatever state each ends in" by_python ends_of_runs
later "a fresh image that is changed in one place" by_python changed_images
later "lines at the edges of the language" by_python script_lines
later "each command, spelled in several ways" by_python spellings
later "words that are of no form" by_python wrong_words
later "what bench says" by_python workloads
later "questions of few lines" by_python short_questions "$explorer"
later "500 scripts with questions, drawn from a seed, against a model and runs" by_python drawn_questions "$explorer"
later "a script at a pipe" by_python streams
