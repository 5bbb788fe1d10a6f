; TinyRAM V=2.000 M=vn W=32 K=16
; Adds to a word of memory in each round, the next word each time, for as many rounds as the auxiliary tape's word
; says, of eight steps each, with five more; and answers 0.
        read r1, 1
        mov r2, 65536
_round: cmpe r1, 0
        cjmp _end
        load.w r3, r2
        add r3, r3, r1
        store.w r2, r3
        add r2, r2, 4
        sub r1, r1, 1
        jmp _round
_end:   answer 0
