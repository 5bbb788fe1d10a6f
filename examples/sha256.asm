; TinyRAM V=2.000 M=vn W=32 K=16
; Answers 0 where the eight words of the primary tape are the SHA-256 digest of the auxiliary tape's bytes, of
; which there are at most 55, one a word; else 1. So it shows that a message of this digest is known, and not which.

; The message, a 1 bit and the number of its bits, as 16 words from 0x10000 on. A digest's words have their
; highest byte first, the machine's their lowest: byte i stands at i xor 3.
        mov r8, 0                   ; bytes of the message
_read:  read r9, 1
        cjmp _ended
        cmpa r9, 255
        cjmp _no                    ; it is no byte
        cmpe r8, 55
        cjmp _no                    ; there are too many
        xor r10, r8, 3
        add r10, r10, 0x10000
        store.b r10, r9
        add r8, r8, 1
        jmp _read
_ended: xor r10, r8, 3
        add r10, r10, 0x10000
        mov r9, 0x80
        store.b r10, r9
        shl r8, r8, 3
        store.w 0x1003c, r8

; 48 words more, each of four before it; r8 is the address of the next.
        mov r8, 0x10040
_more:  sub r9, r8, 60
        load.w r9, r9
        shr r10, r9, 7
        shl r11, r9, 25
        xor r10, r10, r11
        shr r11, r9, 18
        xor r10, r10, r11
        shl r11, r9, 14
        xor r10, r10, r11
        shr r11, r9, 3
        xor r10, r10, r11
        sub r9, r8, 8
        load.w r9, r9
        shr r12, r9, 17
        shl r11, r9, 15
        xor r12, r12, r11
        shr r11, r9, 19
        xor r12, r12, r11
        shl r11, r9, 13
        xor r12, r12, r11
        shr r11, r9, 10
        xor r12, r12, r11
        add r10, r10, r12
        sub r9, r8, 28
        load.w r9, r9
        add r10, r10, r9
        sub r9, r8, 64
        load.w r9, r9
        add r10, r10, r9
        store.w r8, r10
        add r8, r8, 4
        cmpe r8, 0x10100
        cnjmp _more

; 64 rounds on the state a to h in r0 to r7; r8 is four times the round.
        mov r0, 0x6a09e667
        mov r1, 0xbb67ae85
        mov r2, 0x3c6ef372
        mov r3, 0xa54ff53a
        mov r4, 0x510e527f
        mov r5, 0x9b05688c
        mov r6, 0x1f83d9ab
        mov r7, 0x5be0cd19
        mov r8, 0
_round: shr r9, r4, 6               ; the sum of e's rotations
        shl r10, r4, 26
        xor r9, r9, r10
        shr r10, r4, 11
        xor r9, r9, r10
        shl r10, r4, 21
        xor r9, r9, r10
        shr r10, r4, 25
        xor r9, r9, r10
        shl r10, r4, 7
        xor r9, r9, r10
        add r7, r7, r9
        xor r9, r5, r6              ; f where e has a 1, and else g
        and r9, r9, r4
        xor r9, r9, r6
        add r7, r7, r9
        add r9, r8, _k              ; the round's constant, and its word
        load.w r9, r9
        add r7, r7, r9
        add r9, r8, 0x10000
        load.w r9, r9
        add r7, r7, r9
        mov r11, r7
        shr r9, r0, 2               ; the sum of a's rotations
        shl r10, r0, 30
        xor r9, r9, r10
        shr r10, r0, 13
        xor r9, r9, r10
        shl r10, r0, 19
        xor r9, r9, r10
        shr r10, r0, 22
        xor r9, r9, r10
        shl r10, r0, 10
        xor r9, r9, r10
        add r11, r11, r9
        or r9, r0, r1               ; what most of a, b and c have
        and r9, r9, r2
        and r10, r0, r1
        or r9, r9, r10
        add r11, r11, r9
        add r3, r3, r7
        mov r7, r6                  ; the state moves on
        mov r6, r5
        mov r5, r4
        mov r4, r3
        mov r3, r2
        mov r2, r1
        mov r1, r0
        mov r0, r11
        add r8, r8, 4
        cmpe r8, 256
        cnjmp _round

; The digest: the state at first and at the end, added.
        add r0, r0, 0x6a09e667
        read r8, 0
        cjmp _no
        cmpe r8, r0
        cnjmp _no
        add r1, r1, 0xbb67ae85
        read r8, 0
        cjmp _no
        cmpe r8, r1
        cnjmp _no
        add r2, r2, 0x3c6ef372
        read r8, 0
        cjmp _no
        cmpe r8, r2
        cnjmp _no
        add r3, r3, 0xa54ff53a
        read r8, 0
        cjmp _no
        cmpe r8, r3
        cnjmp _no
        add r4, r4, 0x510e527f
        read r8, 0
        cjmp _no
        cmpe r8, r4
        cnjmp _no
        add r5, r5, 0x9b05688c
        read r8, 0
        cjmp _no
        cmpe r8, r5
        cnjmp _no
        add r6, r6, 0x1f83d9ab
        read r8, 0
        cjmp _no
        cmpe r8, r6
        cnjmp _no
        add r7, r7, 0x5be0cd19
        read r8, 0
        cjmp _no
        cmpe r8, r7
        cnjmp _no
        answer 0
_no:    answer 1

; The rounds' constants.
_k:     .raw 0x428a2f98, 0x71374491
        .raw 0xb5c0fbcf, 0xe9b5dba5
        .raw 0x3956c25b, 0x59f111f1
        .raw 0x923f82a4, 0xab1c5ed5
        .raw 0xd807aa98, 0x12835b01
        .raw 0x243185be, 0x550c7dc3
        .raw 0x72be5d74, 0x80deb1fe
        .raw 0x9bdc06a7, 0xc19bf174
        .raw 0xe49b69c1, 0xefbe4786
        .raw 0x0fc19dc6, 0x240ca1cc
        .raw 0x2de92c6f, 0x4a7484aa
        .raw 0x5cb0a9dc, 0x76f988da
        .raw 0x983e5152, 0xa831c66d
        .raw 0xb00327c8, 0xbf597fc7
        .raw 0xc6e00bf3, 0xd5a79147
        .raw 0x06ca6351, 0x14292967
        .raw 0x27b70a85, 0x2e1b2138
        .raw 0x4d2c6dfc, 0x53380d13
        .raw 0x650a7354, 0x766a0abb
        .raw 0x81c2c92e, 0x92722c85
        .raw 0xa2bfe8a1, 0xa81a664b
        .raw 0xc24b8b70, 0xc76c51a3
        .raw 0xd192e819, 0xd6990624
        .raw 0xf40e3585, 0x106aa070
        .raw 0x19a4c116, 0x1e376c08
        .raw 0x2748774c, 0x34b0bcb5
        .raw 0x391c0cb3, 0x4ed8aa4a
        .raw 0x5b9cca4f, 0x682e6ff3
        .raw 0x748f82ee, 0x78a5636f
        .raw 0x84c87814, 0x8cc70208
        .raw 0x90befffa, 0xa4506ceb
        .raw 0xbef9a3f7, 0xc67178f2
