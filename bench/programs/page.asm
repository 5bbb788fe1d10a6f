; TinyRAM V=2.000 M=vn W=32 K=16
; Adds each word's address to it, over a page, 10,000 times, and answers the last word less what it should be.
_round: mov r2, 65536
_word:  load.w r3, r2
        add r3, r3, r2
        store.w r2, r3
        add r2, r2, 4
        cmpe r2, 69632
        cnjmp _word
        add r1, r1, 1
        cmpe r1, 10000
        cnjmp _round
        mull r4, r1, 69628
        sub r3, r3, r4
        answer r3
