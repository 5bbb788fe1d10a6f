; TinyRAM V=2.000 M=vn W=32 K=16
; Answers a hash of the auxiliary tape's word: four rounds of a product, a sum and a shift. The answer is public,
; and the word is not.

        read r1, 1
        mov r2, 4           ; rounds
_round: mull r1, r1, 0x9e3779b1
        add r1, r1, 0x7f4a7c15
        shr r3, r1, 15
        xor r1, r1, r3
        sub r2, r2, 1
        cmpe r2, 0
        cnjmp _round
        answer r1
