#!/usr/bin/env python3
"""tests/stories.py PROGRAM: scripts with cuts, failures and media errors, each on a fresh image of 8 2 32, and their replies.

Prints what does not fit, and nothing else.
"""
import os
import subprocess
import sys
import tempfile

# Each script with its replies, the lines of both with `; ` between them.
STORIES = (
    # what is not synced may be lost, or kept
    ("vstore 0 07*8; cut; restart none; vload 0 8", "ok; ok; ok bad 0; data 00*8"),
    ("vstore 0 07*8; vsync 0 1; cut; restart none; vload 0 8", "ok; ok; ok; ok bad 0; data 07*8"),
    ("vstore 0 07*8; cut; restart all; vload 0 8", "ok; ok; ok bad 0; data 07*8"),
    # refusals
    (
        "vload 8184 8; vload 8188 8; vload 0 0; restart all; cut; vload 0 1; fread a 0",
        "data 00*8; refused range; refused length; refused on; ok; refused off; refused syntax",
    ),
    ("bread 7 1; bread 7 2; bread 0 0", "data 00*512; refused range; refused length"),
    # blocks
    ("bexists 0; bdiscard 0 1; bexists 0", "no; ok; no"),
    ("bwrite 1 aa*512; cut; restart none; bread 1 1", "ok; ok; ok bad 0; data aa*512"),
    ("bscar 2 1; bread 1 3; bexists 2; bwrite 2 05*512; bread 2 1", "ok; scarred 2; yes; ok; data 05*512"),
    # a cut inside a command is answered, and the rest is off
    (
        "vstore 60 aa*8; vsync 60 8; vstore 60 bb*8; cut in 2; vsync 60 8; vload 60 8; restart none; vload 60 8",
        "ok; ok; ok; ok; power lost; refused off; ok bad 0; data bb*4,aa*4",
    ),
    (
        "vstore 0 07*8; cut in 2; vstore 60 aa*8; bexists 0; restart all; vload 60 8",
        "ok; ok; power lost; refused off; ok bad 0; data aa*4,00*4",
    ),
    ("cut in 2; vstore 60 aa*8; cut; restart none; vload 60 8", "ok; power lost; refused off; ok bad 0; data 00*8"),
    (
        "bwrite 3 11*512; cut in 1; bwrite 3 22*512; restart all; bread 3 1; bwrite 3 33*512; bread 3 1",
        "ok; ok; power lost; ok bad 0; data 11*512; ok; data 33*512",
    ),
    ("vstore 0 01; cut in 1; vload 0 1; restart none; vload 0 1", "ok; ok; power lost; ok bad 0; data 00"),
    # what is refused, and what makes no call of the device, leaves the cut to come
    (
        "cut in 1; vload 0 8193; bexists 0; bread 0 1; batomic 0 01*512; restart none; bexists 0",
        "ok; refused range; no; data 00*512; power lost; ok bad 0; no",
    ),
    # the later of two is the one to come, and `cut` takes it away
    ("cut in 1; cut in 2; vload 0 1; cut; restart none; vload 0 2; cut in 0", "ok; ok; data 00; ok; ok bad 0; data 00*2; refused range"),
    # pages that are absent, there and discarded, and physical addresses
    (
        "vranges; vstore 4092 11*8; vpsync 151548 4; vpsync 151552 1; cut; restart none; vload 4092 8",
        "ranges 0 147456 4096 4096 188416 4096; ok; ok; refused address; ok; ok bad 0; data 11*4,00*4",
    ),
    ("vstore 4095 aabb; vload 4094 4; vpsync 151551 1; vpsync 188416 1", "ok; data 00,aa,bb,00; ok; ok"),
    (
        "vstore 0 07*8; vexists 0; vdiscard 0 1; vload 0 8; vexists 0; vstore 64 05; vload 0 65",
        "ok; yes; ok; data 00*8; no; ok; data 00*64,05",
    ),
    ("vstore 0 07; vdiscardif 0 2; vexists 0; vexists 1; vload 0 1", "ok; ok; no; no; data 00"),
    ("vsync 4096 64; vexists 1; vload 4096 1", "ok; no; data 00"),
    (
        "vstore 4096 11*8; vsync 4096 8; cut; restart none; vexists 0; vexists 1; vload 4095 9",
        "ok; ok; ok; ok bad 0; no; yes; data 00,11*8",
    ),
    # a restart that is cut, and one in which a call fails
    (
        "bwrite 0 05*512; cut; cut in 1; restart all; bread 0 1; restart all; bread 0 1",
        "ok; ok; ok; power lost; refused off; ok bad 0; data 05*512",
    ),
    ("cut; fail in 1; restart all; recover", "ok; ok; refused device; ok bad 0"),
    # a failed call, and a recovery that fails too. The power stays on, so what was stored is there
    (
        "fail in 1; batomic 0 01*512; fail in 1; bread 0 1; recover; recover; bread 0 1",
        "ok; refused device; ok; refused recover; refused device; ok bad 0; data 00*512",
    ),
    (
        "vstore 0 00*64; vsync 0 64; vstore 0 07*8; fail in 1; vsync 0 8; restart all; recover; vload 0 8",
        "ok; ok; ok; ok; refused device; refused on; ok bad 0; data 07*8",
    ),
    # of both in one call the cut comes
    ("cut in 1; fail in 1; batomic 0 01*512; restart all", "ok; ok; power lost; refused device"),
    # bad metadata is read no more once the device is mounted anew
    (
        "poison meta 0; bwrite 0 01*512; bread 0 1; cut; restart all; bread 0 1",
        "ok; refused meta 0; data 00*512; ok; stopped meta 0; refused meta 0",
    ),
    ("poison meta 2304; poison meta 2303; bexists 0; bscar 0 1; recover", "refused range; ok; no; refused meta 2303; refused on"),
    (
        "poison meta 7; cut; restart all; fail in 3; cut in 3; fail in 0; restart all; recover",
        "ok; ok; stopped meta 7; ok; ok; refused range; refused on; refused meta 7",
    ),
    # files: made, listed in order of name, renamed and deleted
    (
        "list; create a 0; create a 1; create b 257; rename a a; list; delete a; delete a",
        "files; ok; refused exists; refused limit; refused exists; files a:0; ok; refused missing",
    ),
    (
        "create b 1; create d 2; create c 3; rename b e; list; resize d 0; rename d a; list; cut; restart none; list",
        "ok; ok; ok; ok; files c:3 d:2 e:1; ok; ok; files a:0 c:3 e:1; ok; ok bad 0; files a:0 c:3 e:1",
    ),
    (
        "create A 1; create abcdefghijklmnopqrstuvwxyz-_.456 1; create abcdefghijklmnopqrstuvwxyz-_.4567 1; list a; list",
        "refused syntax; ok; refused syntax; refused syntax; files abcdefghijklmnopqrstuvwxyz-_.456:1",
    ),
    # a change of files that is cut, and one that fails, early in it
    (
        "create a 1; cut in 2; rename a b; list; restart all; list; cut in 2; delete a; restart none; list",
        "ok; ok; power lost; refused off; ok bad 0; files a:1; ok; power lost; ok bad 0; files a:1",
    ),
    ("create a 1; fail in 2; delete a; list; recover; list", "ok; ok; refused device; refused recover; ok bad 0; files a:1"),
    # bytes of files: over a page that is there and a hole, up to the last pages, and in files of other names
    (
        "create a 3; fread a 0 4; fwrite a 0 05; fwrite a 4092 11*8; fread a 4091 10; fread a 0 2; fread a 8192 3",
        "ok; data 00*4; ok; ok; data 00,11*8,00; data 05,00; data 00*3",
    ),
    (
        "create a 1; create b 1; fwrite b 0 0b*4; fwrite a 0 0a*4; fread b 0 4; rename a c; fread c 0 5; fread a 0 4",
        "ok; ok; ok; ok; data 0b*4; ok; data 0a*4,00; refused missing",
    ),
    ("create a 2; fwrite a 4096 05*4; resize a 1; resize a 2; fwrite a 4097 01; fread a 4096 4", "ok; ok; ok; ok; ok; data 00,01,00*2"),
    # why they are refused, and which reason comes first
    (
        "fread a 0 1; fwrite a 9000 01; create a 2; fread a 8191 2; fread a 8193 0; fread a 8192 0; fread a 0 65537; "
        "fwrite a 8191 0101; fread b 9000 0",
        "refused missing; refused missing; ok; refused range; refused range; refused length; refused range; refused range; "
        "refused missing",
    ),
    (
        "create a 17; fwrite a 0 01*65536; fwrite a 65536 01; fwrite a 65535 0203; fread a 65535 2; fread a 0 65536; fread a 0 65537; "
        "fwrite a 65535 02",
        "ok; ok; refused full; refused full; data 01,00; data 01*65536; refused limit; ok",
    ),
    (
        "create a 2; fwrite a 0 01; poison meta 154; fwrite a 1 02; fwrite a 4095 0303; fread a 0 3",
        "ok; ok; ok; ok; refused meta 154; data 01,02,00",
    ),
    # what is stored there may be lost, or kept
    ("create a 1; fwrite a 0 ff*8; cut; restart none; fread a 0 8", "ok; ok; ok; ok bad 0; data 00*8"),
    ("create a 1; fwrite a 0 ff*8; cut; restart all; fread a 0 8", "ok; ok; ok; ok bad 0; data ff*8"),
    # or made durable through a mapping, which a cut ends; a line that wears out is told by the flush that looks again
    (
        "create a 1; map a 0 4096 shared; store 0 0 ff*8; sync 0 0 1; cut; restart none; fread a 0 8; load 0 0 8",
        "ok; handle 0; ok; ok; ok; ok bad 0; data ff*8; refused handle",
    ),
    (
        "create a 1; fwrite a 0 00*4096; map a 0 4096 shared; weaken file a 0; store 0 0 09*8; flushv 0 0 8 64 8; load 0 0 8; "
        "load 0 64 1; check a 0 4096",
        "ok; ok; handle 0; ok; ok; verify file a 0 64; poison file a 0 64; data 00; bad 1 0",
    ),
    # lines that went bad are events, once each; a restart makes them anew, of all lines that are bad
    (
        "create a 1; fwrite a 0 01*300; map a 0 100 shared; weaken file a 64; poison file a 256; flush 0 0 8 99 1 64 36; event; event; "
        "event; cut; event; restart none; event; event; event",
        "ok; ok; handle 0; ok; ok; ok; event a 256 64 unmapped live; event a 64 64 mapped live; none; ok; refused off; ok bad 2; "
        "event a 64 64 unmapped restart; event a 256 64 unmapped restart; none",
    ),
    # written together all are there, or none: a bad line refuses what no single range covers, and a cut leaves the old bytes
    (
        "create a 1; fwrite a 0 00*4096; poison file a 70; fatomic a 0 02*64; fatomic a 0 02*128; fread a 64 2; fwrite a 126 03; "
        "fatomic a 0 04; cut; restart none; fread a 0 2; fread a 125 3",
        "ok; ok; ok; poison file a 64 64; ok; data 02*2; ok; ok; ok; ok bad 0; data 04,02; data 02,03,02",
    ),
    (
        "create a 2; fwrite a 0 05*8; cut in 1; fmulti a 0 01*8 4096 02*8; restart all; fread a 0 8; fread a 4096 8; "
        "fmulti a 0 01*8 7 02; fmulti a 4096 02*8 0 01*8; cut; restart none; fread a 0 8; fread a 4096 8",
        "ok; ok; ok; power lost; ok bad 0; data 05*8; data 00*8; refused overlap; ok; ok; ok bad 0; data 01*8; data 02*8",
    ),
    # pages are discarded together, and a file is made durable as a whole, but for a line that wears out
    (
        "create a 2; fwrite a 4090 07*12; fdiscard a 1 2; fdiscard a 1 1; fread a 4094 4; weaken file a 64; fsync a; event; fsync a; "
        "cut; restart none; fread a 4088 4",
        "ok; ok; refused range; ok; data 07*2,00*2; ok; ok; event a 64 64 unmapped live; poison file a 64 64; ok; ok bad 1; "
        "data 00*2,07*2",
    ),
    # bad metadata stops changes of them, and the list once the device is mounted anew
    (
        "create a 1; poison meta 154; create a 1; create b 1; delete b; rename a b; list; cut; restart all; list",
        "ok; ok; refused exists; refused meta 154; refused missing; refused meta 154; files a:1; ok; stopped meta 154; refused meta 154",
    ),
    # attributes are told in each mode, and what is written back is there after a cut
    (
        "attr block.count; attr x.y; cut; attr volume.size; attr x.y; evict 1; restart all; attr file.pages",
        "attr 8; refused unknown; ok; attr 8192; refused unknown; refused off; ok bad 0; attr 16",
    ),
    (
        "vstore 0 ff*8; evict 1000000; vstore 64 01; evict 0; cut; restart none; vload 0 8; vload 64 1",
        "ok; ok; ok; ok; ok; ok bad 0; data ff*8; data 00",
    ),
    # what was synced outlives a cut
    (
        "vstore 60 aa*8; vsync 0 64; vload 58 12; vload 8192 1; restart all; cut; vload 58 12; restart none; vload 58 12",
        "ok; ok; data 00*2,aa*8,00*2; refused range; refused on; ok; refused off; ok bad 0; data 00*2,aa*4,00*6",
    ),
    # an armed cut takes the power in a sync
    (
        "vstore 60 aa*8; cut in 2; vsync 60 8; vload 60 8; restart none; vload 60 8",
        "ok; ok; power lost; refused off; ok bad 0; data aa*4,00*4",
    ),
    # a cut disarms the one to come
    (
        "cut in 0; cut in 3; cut; cut in 0; restart none; bwrite 7 aa*512; bread 7 1",
        "refused range; ok; ok; refused range; ok bad 0; ok; data aa*512",
    ),
    # a restart that is cut can be done again
    (
        "batomic 2 aa*1024; cut; cut in 9; restart none; bread 2 2; restart all; bread 2 2",
        "ok; ok; ok; power lost; refused off; ok bad 0; data aa*1024",
    ),
    # after a failed call a cut leads on too
    (
        "vstore 0 00; fail in 2; vstore 60 aa*8; vload 60 8; restart all; cut in 1; cut; restart all; vload 60 8",
        "ok; ok; refused device; refused recover; refused on; ok; ok; ok bad 0; data aa*4,00*4",
    ),
    # a weak line goes bad by its sync, and stays bad over a clear that is cut
    (
        "vstore 0 05; weaken volume 0; vsync 0 1; vload 0 1; cut in 1; clear volume 0; restart all; clear volume 0; vload 0 1",
        "ok; ok; ok; poison volume 0 64; ok; power lost; ok bad 1; ok; data 00",
    ),
    # a recovery goes on with all that was stored, and finds the failed write done or not
    (
        "batomic 2 aa*1024; vstore 0 05; fail in 3; batomic 2 bb*1024; recover; bread 2 2; vload 0 1; recover",
        "ok; ok; ok; refused device; ok bad 0; data aa*1024; data 05; refused on",
    ),
    # a bad line of metadata stops the next mount, and nothing before it but changes
    (
        "vstore 0 05; poison meta 2304; poison meta 7; vsync 0 1; vload 0 1; bscar 8 1; bscar 0 1; cut; cut in 0; restart all; "
        "poison meta 3; vload 0 1; recover",
        "ok; refused range; ok; ok; data 05; refused range; refused meta 7; ok; refused range; stopped meta 7; ok; refused meta 3; "
        "refused meta 3",
    ),
    # files are listed in order of name, and are there after a cut
    (
        "list; create b 2; create c 0; create b 257; create a 257; rename c a; list; resize a 256; delete b; cut; restart none; list",
        "files; ok; ok; refused exists; refused limit; ok; files a:0 b:2; ok; ok; ok; ok bad 0; files a:256",
    ),
    # a cut early in a change leaves the old files, also where the restart is cut
    (
        "create a 3; cut in 2; rename a b; list; cut in 9; restart all; restart none; list",
        "ok; ok; power lost; refused off; ok; power lost; ok bad 0; files a:3",
    ),
    # so does a failure, and the recovery goes on with them
    (
        "create a 1; fail in 2; delete a; list; recover; list; delete a; delete a",
        "ok; ok; refused device; refused recover; ok bad 0; files a:1; ok; refused missing",
    ),
    # a bad line of the inodes stops changes, and the next mount
    (
        "create a 1; poison meta 154; delete a; list; cut; restart all; list",
        "ok; ok; refused meta 154; files a:1; ok; stopped meta 154; refused meta 154",
    ),
)


def main():
    program = os.path.abspath(sys.argv[1])
    with tempfile.TemporaryDirectory() as room:
        subprocess.run([program, "new", "img", "8", "2", "32"], cwd=room, check=True, stdout=subprocess.DEVNULL)
        for script, replies in STORIES:
            lines = script.replace("; ", "\n") + "\n"
            done = subprocess.run([program, "run", "img", "out"], cwd=room, input=lines, capture_output=True, text=True, timeout=60)
            said = done.stdout.removesuffix("\n").replace("\n", "; ")
            if (done.returncode, said) != (0, replies):
                print(f"{script}: {done.returncode} {said}")


if __name__ == "__main__":
    main()
