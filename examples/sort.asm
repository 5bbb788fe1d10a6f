; TinyRAM V=2.000 M=vn W=32 K=16
; The primary tape has a number n, n words, and n words again. Answers 0 exactly where the second n words are
; the first in rising order; the auxiliary tape says, for each of them, which of the first it is, from 0 on.
; So the list and the sorted list are public, and the order that leads from one to the other is not.

        read r1, 0          ; how many there are
        mov r2, 0           ; which word
_list:  cmpae r2, r1
        cjmp _check
        read r3, 0
        mull r4, r2, 4
        add r4, r4, 4096
        store.w r4, r3      ; word i at 4096 + 4 i
        add r2, r2, 1
        jmp _list
_check: mov r2, 0
        mov r5, 0           ; the word before in the sorted list
_next:  cmpae r2, r1
        cjmp _yes
        read r3, 0          ; the next word of the sorted list
        cmpae r3, r5
        cnjmp _no
        mov r5, r3
        read r6, 1          ; which word it is
        cmpae r6, r1
        cjmp _no
        mull r4, r6, 4
        add r4, r4, 4096
        load.w r7, r4
        cmpe r7, r3
        cnjmp _no
        add r4, r4, 0x100000 ; its mark is 1 MiB further on, after the list
        load.w r7, r4       ; whether it stood in the sorted list before
        cmpe r7, 0
        cnjmp _no
        store.w r4, r1      ; n isn't 0 here
        add r2, r2, 1
        jmp _next
_yes:   answer 0
_no:    answer 1
